#!/usr/bin/env python3
"""Worked histories sent from one store to another as packets: what is printed of a revision and its ancestors, what is kept of an
input, each refusal in its order with nothing kept. The answers come from a model of what a store holds, with the packets of
packets.py and the texts of docs/FORMATS.md. Through the built program; ends with 'N passed, M failed'. With the word 'lines' and
a folder it writes the same rows as lines of `mtn_cases_store`, asked and answered, with more over objects that fail."""
import base64
import copy
import functools
import random
import re
import sys

import cert_rows
import merged_rows
import packets
import revisions
from cert_rows import KEY, OTHER, THIRD, Certified
from merged_rows import H, HA, HB, HC, answering, asking, escaped
from revisions import add_dir, add_file, manifest, patch, revision, sha, two

LIMIT = 67108864
NONE = 'c' * 40
EMPTY = sha(b'')


def toy(data):
    """The length of a text for its id, as Toy has it."""
    return '%040x' % len(data)


def parents_of(text):
    return [parent.decode() for parent in re.findall(rb'^old_revision \[([0-9a-f]{40})\]$', text, re.M)]


def contents_of(text):
    """The contents that a revision brings, in the order of its text."""
    return [content.decode() for content in re.findall(rb'^ *(?:content|to) \[([0-9a-f]{40})\]$', text, re.M)]


def as_bytes(cert):
    """A certificate whose name, key and value are bytes."""
    revision, *fields = cert
    return (revision, *(field.encode() if isinstance(field, str) else field for field in fields))


def graph_of(log):
    return ''.join(' '.join([at, *sorted(parents_of(text))]) + '\n' for at, text in sorted(log.items()))


class Held:
    """What a store holds: files and texts by their ids, the texts in log order, certificates, and the names of keys."""

    # What a text of a revision is refused for that is not its parents nor its contents.
    faults = {}

    def __init__(self, ident=sha):
        self.ident, self.files, self.log, self.certs, self.keys = ident, {}, {}, set(), {}

    def above(self, *ids):
        """The revisions with all their ancestors."""
        found, todo = set(), list(ids)
        while todo:
            at = todo.pop()
            if at not in found:
                found.add(at)
                todo.extend(parents_of(self.log[at]))
        return found

    def sent(self, revision, *have):
        """The packets of a revision and its ancestors without the others and theirs."""
        wanted, files, out = self.above(revision) - self.above(*have), set(), []
        for at, text in self.log.items():
            if at in wanted:
                for content in contents_of(text):
                    if content not in files:
                        out.append(fdata(self.files[content], content))
                    files.add(content)
                out.append(rdata(text, at))
                said = sorted((name, bytes.fromhex(key.decode()), value, signature) for of, name, key, value, signature in self.certs if of == at)
                out += [rcert(at, name, key.hex(), value, signature) for name, key, value, signature in said]
        return b''.join(out)

    def take(self, packet):
        """The refusal of a packet, or None where it was kept."""
        word, *fields = packet
        return None if word == 'passed' else getattr(self, 'take_' + word)(*fields)

    def take_file(self, _, data):
        if len(data) > LIMIT:
            return 'TextTooLong %d' % len(data)
        if self.files.setdefault(self.ident(data), data) != data:
            return 'Collision ' + self.ident(data)

    def take_revision(self, _, text):
        at = self.ident(text)
        if at in self.log:
            return None if self.log[at] == text else 'Collision ' + at
        unknown = [parent for parent in parents_of(text) if parent not in self.log]
        if unknown:
            return 'UnknownParent ' + unknown[0]
        missing = [content for content in contents_of(text) if content not in self.files]
        if missing:
            return 'UnknownFile ' + missing[0]
        if text in self.faults:
            return self.faults[text]
        self.log[at] = text

    def take_cert(self, revision, name, kind, key, value, signature):
        for long in (value, signature):
            if len(long) > LIMIT:
                return 'TextTooLong %d' % len(long)
        if revision.decode() not in self.log:
            return 'UnknownRevision ' + revision.decode()
        if kind == 'name':
            named = [of for of, called in self.keys.items() if called.encode() == key]
            if len(named) != 1:
                return 'UnknownKey ' + key.decode()
            key = named[0].encode()
        self.certs.add((revision.decode(), name, key, value, signature))

    def read(self, text):
        """What is printed, and whether it is a refusal; all is kept, or nothing."""
        made = packets.read_all(text)
        if isinstance(made, tuple):
            return 'BadPacket %d %s' % made, True
        for number, (word, *fields) in enumerate(made, 1):
            if word in ('file', 'revision') and fields[0].decode() != self.ident(fields[1]):
                return 'IdMismatch %d %s' % (number, self.ident(fields[1])), True
        after = copy.copy(self)
        after.files, after.log, after.certs = dict(self.files), dict(self.log), set(self.certs)
        for number, packet in enumerate(made, 1):
            line = after.take(packet)
            if line is not None:
                return 'InPacket %d %s' % (number, line), True
        new = tuple(len(later) - len(before) for later, before in ((after.files, self.files), (after.log, self.log), (after.certs, self.certs)))
        self.files, self.log, self.certs = after.files, after.log, after.certs
        return 'files %d\nrevisions %d\ncerts %d\n' % new, False


def fdata(data, of=None):
    return packets.write(('file', (of or sha(data)).encode(), data))


def rdata(text, of=None):
    return packets.write(('revision', (of or sha(text)).encode(), text))


def rcert(of, name, key, value, signature=b''):
    kind = 'id' if re.fullmatch('[0-9a-f]{40}', key) else 'name'
    return packets.write(('cert', of.encode(), name, kind, key.encode(), value, signature))


def stanza(*lines):
    column = max(len(symbol) for symbol, _ in lines)
    return b''.join(symbol.rjust(column).encode() + b' ' + value + b'\n' for symbol, value in lines)


class Packeted(Certified):
    """A history that is sent and read, beside a model of what its store holds."""

    def __init__(self, title, **more):
        self.model = Held()
        super().__init__(title, **more)

    def asks(self, words, status, output, given=None):
        super().asks(words, status, output, given)
        if status == 0 and words[0] == 'put_file':
            self.model.files[self.model.ident(given)] = given
        elif status == 0 and words[0] in ('put_revision', 'commit'):
            self.model.log[self.model.ident(given)] = given
        elif status == 0 and words[0] == 'get_revision':
            self.model.log.setdefault(words[1], output if isinstance(output, bytes) else output.encode())
        elif status == 0 and words[0] == 'key':
            self.model.keys[words[1]] = words[2]

    def certs(self):
        """All certificates: those that were read, and those that commands made."""
        self.model.certs |= {as_bytes(cert) for cert in self.held}
        return self.model.certs

    def lists(self, revision):
        of = sorted((n, bytes.fromhex(k.decode()), v, s) for r, n, k, v, s in self.certs() if r == revision)
        string = lambda text: b'"' + text.replace(b'\\', b'\\\\').replace(b'"', b'\\"') + b'"'
        texts = []
        for name, key, value, signature in of:
            named = self.model.keys.get(key.hex())
            texts.append(stanza(('key', b'[' + key.hex().encode() + b']'), *([('key_name', string(named.encode()))] if named else []), ('name', string(name)),
                                ('value', string(value)), ('signature', string(base64.b64encode(signature)))))
        self.asks(['certs', revision], 0, b'\n'.join(texts))

    def sends(self, revision, *have):
        """Prints the packets; the model's are returned."""
        self.certs()
        text = self.model.sent(revision, *have)
        self.asks(['packets', revision, *have], 0, text)
        return text

    def reads(self, text, told=None):
        """Reads packets. Where a row says what is told, this is the model's answer too."""
        self.certs()
        line, refused = self.model.read(text)
        assert told is None or line == told, (self.title, line, told)
        self.asks(['read'], 1 if refused else 0, 'refused ' + line + '\n' if refused else line, text)
        return refused

    def is_empty(self, *files):
        """Nothing was kept; these files neither."""
        self.asks(['graph'], 0, '')
        self.asks(['branches'], 0, '')
        self.lacks(*files)

    def lacks(self, *files):
        for of in files:
            self.asks(['get_file', of], 1, 'refused UnknownFile %s\n' % of)

    def tells_all(self):
        """Everything that the model holds is found."""
        for of, data in self.model.files.items():
            self.asks(['get_file', of], 0, data)
        for at, text in self.model.log.items():
            self.asks(['get_revision', at], 0, text)
            self.lists(at)
        self.asks(['graph'], 0, graph_of(self.model.log))
        self.asks(['toposort', *sorted(self.model.log)], 0, ''.join(at + '\n' for at in self.model.log))
        values = {value for _, name, _, value, _ in self.certs() if name == b'branch'}
        self.asks(['branches'], 0, b''.join(value + b'\n' for value in sorted(values)))


def counts(*numbers):
    return 'files %d\nrevisions %d\ncerts %d\n' % numbers


ROOT = revision({'': None, 'f': H}, ('', [add_dir(''), add_file('f', H)]))
CHILD = revision({'': None, 'f': HA}, (sha(ROOT), [patch('f', H, HA)]))
LONE = revision({'': None}, ('', [add_dir('')]))
ABC = b'[fdata ' + H.encode() + b']\nYWJj\n[end]\n'


def one_file():
    row = Packeted('A file is read from its packet, and kept once; an input without packets keeps nothing.', files=())
    row.reads(b'[fdata ' + H.encode() + b']\nYWI=\n[end]\n', 'IdMismatch 1 da23614e02469a0d7c7bd1bdab5c9c474b1904dc')
    row.is_empty(H, sha(b'ab'))
    row.reads(b'', counts(0, 0, 0))
    row.reads(b' \t\r\n\n', counts(0, 0, 0))
    row.is_empty()
    row.reads(ABC, counts(1, 0, 0))
    row.asks(['get_file', H], 0, 'abc')
    row.reads(ABC, counts(0, 0, 0))
    row.reads(ABC + ABC + fdata(b'a'), counts(1, 0, 0))
    row.tells_all()
    for words in (['read', 'x'], ['read', '--resolve'], ['read', '--key=' + KEY]):
        row.asks(words, 2, 'usage\n', b'')
    return row


def faults_behind_good_packets():
    row = Packeted('The first bad packet is told by its number, and of the good ones before it nothing is kept.', files=())
    good = [ABC, fdata(b'a'), b'[pubkey k@x]\nAA==\n[end]\n', fdata(b'b')]
    bad = [(b'[fdata ' + H.encode() + b']\nYWJj\n', 'Truncated'), (ABC[:-2], 'Truncated'), (b'x', 'Truncated'), (b'[fdelta x y]\n', 'Truncated'),
           (b'[fdelta x y]\n[end]\n', 'Unsupported'), (b'[keypair k@x]\nAA==#AA==\n[end]\n', 'Unsupported'), (b'[privkey\tk@x]\nAA==\n[end]\n', 'Unsupported'),
           (b'[fdata ' + H.encode() + b']\nYW[Jj\n[end]\n', 'NotPacket'), (b'[fdata ' + H.encode() + b']\nYWJj]\n[end]\n', 'NotPacket'),
           (b'[fdata ' + H.upper().encode() + b']\nYWJj\n[end]\n', 'NotPacket'), (b'[fdata ' + H[:-1].encode() + b']\nYWJj\n[end]\n', 'NotPacket'),
           (b'[fdata' + H.encode() + b']\nYWJj\n[end]\n', 'NotPacket'), (b'[sdata ' + H.encode() + b']\nYWJj\n[end]\n', 'NotPacket'), (b'[end]\n', 'NotPacket'),
           (b'x' + ABC, 'NotPacket'), (b'[rcert ' + sha(LONE).encode() + b' branch k@xbWFpbg==\n[end]\n', 'NotPacket'), (b'[rcert ' + sha(LONE).encode() + b' branch]\n[end]\n', 'NotPacket'),
           (b'[fdata ' + H.encode() + b']\nYWJ\n[end]\n', 'BadBase64'), (b'[fdata ' + H.encode() + b']\nYWJj=\n[end]\n', 'BadBase64'),
           (b'[fdata ' + sha(b'ab').encode() + b']\nYWJ=\n[end]\n', 'BadBase64'), (b'[fdata ' + H.encode() + b']\nYW-j\n[end]\n', 'BadBase64'), (b'[pubkey k@x]\nA\n[end]\n', 'BadBase64'),
           (b'[rcert ' + sha(LONE).encode() + b'\n branch k@x bWFpbg=]\n[end]\n', 'BadBase64'), (b'[rcert ' + sha(LONE).encode() + b'\n branch k@x bWFpbg==]\nYQ\n[end]\n', 'BadBase64')]
    for text, why in bad:
        for front in range(len(good) + 1):
            row.reads(b''.join(good[:front]) + text, 'BadPacket %d %s' % (front + 1, why))
        row.reads(b''.join(good[:2]) + text + ABC)
    row.is_empty(H, HA, HB)
    row.reads(b'[fdelta x y]\n[end]\n', 'BadPacket 1 Unsupported')
    row.reads(b'[pubkey k@x]\nAA==\n[end]\n', counts(0, 0, 0))
    row.is_empty(H, HA, HB)
    row.reads(b''.join(good), counts(3, 0, 0))
    row.tells_all()
    return row


def shapes():
    row = Packeted('A payload ends at the first end, may be spaces alone, and has space anywhere.', files=())
    row.reads(b'[fdata ' + H.encode() + b']\nYWJj[end]YWJj\n[end]\n', 'BadPacket 2 NotPacket')
    row.reads(b'[fdata ' + H.encode() + b']\nYW[end]Jj\n[end]\n', 'BadPacket 1 BadBase64')
    row.is_empty(H, EMPTY)
    row.reads(b'[fdata ' + EMPTY.encode() + b'] \t\r\n [end]', counts(1, 0, 0))
    row.asks(['get_file', EMPTY], 0, '')
    row.reads(b'[fdata\r\n\t ' + H.encode() + b' \n]Y W\tJ\r\nj[end][pubkey k@x][end] [fdata ' + EMPTY.encode() + b'][end]', counts(1, 0, 0))
    row.reads(b'\r\n' + ABC.replace(b'\n', b'\r\n') + b'[fdata ' + sha(b'\0[end]\xff').encode() + b']' + base64.b64encode(b'\0[end]\xff') + b'[end]', counts(1, 0, 0))
    row.tells_all()
    row.reads(b'[rdata ' + sha(LONE).encode() + b']' + b' '.join(base64.b64encode(LONE)[at:at + 1] for at in range(len(base64.b64encode(LONE)))) + b'[end]', counts(0, 1, 0))
    row.reads(b'[rcert ' + sha(LONE).encode() + b' branch ' + KEY.encode() + b'][end][rcert ' + sha(LONE).encode() + b'\tbranch\n' + OTHER.encode() + b'\r]\n \n[end]', counts(0, 0, 2))
    row.tells_all()
    return row


def mismatches():
    row = Packeted('The least packet whose id is not that of its payload is told, behind bad packets and before all other refusals.', files=())
    wrong = lambda data, of: fdata(data, of)
    row.reads(ABC + wrong(b'a', HB) + wrong(b'b', HA), 'IdMismatch 2 ' + HA)
    row.reads(ABC + wrong(b'b', HA) + wrong(b'a', HB) + fdata(b'c'), 'IdMismatch 2 ' + HB)
    row.reads(b'[pubkey k@x]\n[end]\n' + ABC + rdata(LONE, sha(ROOT)), 'IdMismatch 3 ' + sha(LONE))
    row.reads(rdata(CHILD) + wrong(b'a', HB), 'IdMismatch 2 ' + HA)
    row.reads(rcert(NONE, b'branch', 'k@x', b'main') + ABC + rdata(b'no revision', NONE), 'IdMismatch 3 ' + sha(b'no revision'))
    row.reads(wrong(b'a', HB) + b'[fdelta x y]\n[end]\n', 'BadPacket 2 Unsupported')
    row.reads(wrong(b'a', HB) + ABC[:-1] + b'[fdata', 'BadPacket 3 Truncated')
    row.is_empty(H, HA, HB, HC)
    return row


def cut_off():
    row = Packeted('Packets that end behind any of their bytes: of an input that is no list of packets nothing is kept.', files=())
    text = rdata(LONE) + rcert(sha(LONE), b'branch', KEY, b'main')
    first = len(rdata(LONE))
    for size in range(len(text)):
        if size in (first - 1, first):
            continue
        row.reads(text[:size], counts(0, 0, 0) if size == 0 else counts(0, 1, 1) if size == len(text) - 1 else 'BadPacket %d Truncated' % (1 if size < first else 2))
        if size + 2 == len(text):
            row.is_empty()
    row.reads(text[:first], counts(0, 0, 0))
    row.reads(text, counts(0, 0, 0))
    row.tells_all()
    return row


def cut_behind_the_first():
    row = Packeted('The first of two packets, with the end of its line and without it, is a list of packets.', files=())
    row.reads(rdata(LONE)[:-1], counts(0, 1, 0))
    row.reads(rdata(LONE), counts(0, 0, 0))
    row.reads(rdata(LONE) + rcert(sha(LONE), b'branch', KEY, b'main'), counts(0, 0, 1))
    row.tells_all()
    return row


def three_and_a_cut():
    row = Packeted('Three good packets and a fourth that is cut before its end.', files=())
    row.reads(ABC + fdata(b'a') + fdata(b'b') + fdata(b'c')[:-6], 'BadPacket 4 Truncated')
    row.is_empty(H, HA, HB, HC)
    row.reads(ABC + fdata(b'a') + fdata(b'b') + fdata(b'c'), counts(4, 0, 0))
    row.tells_all()
    return row


def in_their_order():
    row = Packeted('What a packet needs has to be held or to come before it; else nothing of the input is kept.', files=())
    said = rcert(sha(ROOT), b'branch', KEY, b'main')
    row.reads(rdata(CHILD), 'InPacket 1 UnknownParent ' + sha(ROOT))
    row.reads(rdata(CHILD) + ABC + fdata(b'a') + rdata(ROOT), 'InPacket 1 UnknownParent ' + sha(ROOT))
    row.reads(ABC + fdata(b'a') + b'[pubkey k@x]\n[end]\n' + rdata(CHILD) + rdata(ROOT), 'InPacket 4 UnknownParent ' + sha(ROOT))
    row.reads(rdata(ROOT) + ABC, 'InPacket 1 UnknownFile ' + H)
    row.reads(ABC + rdata(ROOT) + rdata(CHILD) + fdata(b'a'), 'InPacket 3 UnknownFile ' + HA)
    row.reads(said + ABC + rdata(ROOT), 'InPacket 1 UnknownRevision ' + sha(ROOT))
    row.reads(ABC + rdata(ROOT) + said + rcert(sha(CHILD), b'branch', KEY, b'main') + fdata(b'a') + rdata(CHILD), 'InPacket 4 UnknownRevision ' + sha(CHILD))
    row.is_empty(H, HA)
    differs = revision({'': None, 'g': H}, ('', [add_dir(''), add_file('f', H)]))
    row.model.faults = {b'abc': 'NotText 3', b'': 'BadOrder 1', differs: 'ManifestDiffers ' + sha(manifest({'': None, 'f': H}))}
    row.reads(ABC + rdata(b'abc'), 'InPacket 2 NotText 3')
    row.reads(ABC + rdata(b''), 'InPacket 2 BadOrder 1')
    row.reads(ABC + rdata(ROOT) + said + rdata(differs), 'InPacket 4 ManifestDiffers ' + sha(manifest({'': None, 'f': H})))
    row.reads(ABC + rdata(ROOT) + rdata(differs) + rdata(CHILD), 'InPacket 3 ManifestDiffers ' + sha(manifest({'': None, 'f': H})))
    row.is_empty(H, HA)
    row.reads(ABC + rdata(ROOT) + said + fdata(b'a') + rdata(CHILD), counts(2, 2, 1))
    row.tells_all()
    row.reads(rdata(CHILD) + said + rdata(ROOT), counts(0, 0, 0))
    row.heads('main', sha(ROOT))
    return row


def keys():
    row = Packeted('A certificate names its key by id, or by a name that one key has alone.', files=())
    row.reads(rdata(LONE), counts(0, 1, 0))
    lone, by = sha(LONE), lambda key, value=b'main', name=b'branch': rcert(sha(LONE), name, key, value)
    row.reads(by('k@x'), 'InPacket 1 UnknownKey k@x')
    row.reads(ABC + by(KEY) + by('k@x'), 'InPacket 3 UnknownKey k@x')
    row.reads(rcert(NONE, b'branch', 'k@x', b'main'), 'InPacket 1 UnknownRevision ' + NONE)
    row.lists(lone)
    row.lacks(H)
    row.names_key(KEY, 'k@x')
    row.names_key(THIRD, 'other@x')
    row.reads(by('k@x'), counts(0, 0, 1))
    row.reads(by(KEY) + by('k@x') + by(KEY, b'side') + by('k@x', b'side'), counts(0, 0, 1))
    row.reads(by('K@x'), 'InPacket 1 UnknownKey K@x')
    row.reads(by('k@'), 'InPacket 1 UnknownKey k@')
    row.reads(by('k@x!'), 'InPacket 1 UnknownKey k@x!')
    row.names_key(OTHER, 'k@x')
    row.reads(by('k@x'), 'InPacket 1 UnknownKey k@x')
    row.reads(by('k@x', b'another'), 'InPacket 1 UnknownKey k@x')
    row.reads(ABC + by(OTHER, b'another') + by('k@x', b'another'), 'InPacket 3 UnknownKey k@x')
    row.lists(lone)
    row.lacks(H)
    row.reads(by(OTHER) + by('other@x', b'third') + by(NONE), counts(0, 0, 3))
    upper = THIRD.upper()
    row.reads(by(upper), 'InPacket 1 UnknownKey ' + upper)
    row.names_key('d' * 40, upper)
    row.reads(by(upper, b'', b'author'), counts(0, 0, 1))
    # Forty digits are an id, also where they are some key's name.
    row.names_key('f' * 40, 'd1' * 20)
    row.reads(by('d1' * 20), counts(0, 0, 1))
    row.reads(by('f' * 40), counts(0, 0, 1))
    row.names_key('e' * 40, 'n' * 255)
    row.reads(by('n' * 255, b'long', b'n' * 255), counts(0, 0, 1))
    row.tells_all()
    row.heads('third', lone)
    return row


def sender(title='A history whose files, revisions and certificates are sent.'):
    """Two sides of a root and their merge, with certificates; the row and its revisions."""
    row = Packeted(title)
    r = row.accepts({'': None, 'f': H}, ('', [add_dir(''), add_file('f', H)]))
    row.certifies(r, 'branch', 'main')
    row.certifies(r, 'branch', 'main', OTHER)
    row.certifies(r, 'author', 'someone "else" \\ here', THIRD, b'\x00\xff signed')
    row.certifies(r, 'branch', 'a', KEY, b'xyz')
    row.certifies(r, 'branch', 'a', KEY, b'xy')
    row.certifies(r, 'z!~', '')
    p = row.accepts({'': None, 'f': HA, 'p': H, 'q': HB}, (r, [add_file('p', H), add_file('q', HB), patch('f', H, HA)]))
    row.names_key(KEY, 'k@x')
    q = row.accepts({'': None, 'f': H, 'c': HB}, (r, [add_file('c', HB)]))
    row.certifies(q, 'changelog', 'a line of more than fifty-four bytes, which is cut\nin two [end]', KEY, bytes(range(256)))
    m = row.accepts({'': None, 'f': HA, 'p': H, 'q': HB, 'c': HB}, *two((p, [add_file('c', HB)]), (q, [add_file('p', H), add_file('q', HB), patch('f', H, HA)])))
    row.certifies(m, 'branch', 'main')
    return row, r, p, q, m


def sent():
    row, r, p, q, m = sender()
    whole = row.sends(m)
    assert len(re.findall(rb'\[fdata ' + H.encode(), whole)) == len(re.findall(rb'\[fdata ' + HB.encode(), whole)) == 1
    row.sends(r)
    row.sends(p)
    row.sends(q)
    for words, told in (([r, r], b''), ([r, m], b''), ([p, p, q], b''), ([p, q, m], b'')):
        assert row.sends(*words) == told
    row.sends(m, r)
    row.sends(m, p)
    row.sends(m, q)
    row.sends(m, p, q)
    row.sends(m, q, p, r, q)
    assert row.sends(p, q).count(b'[rdata') == 1 and fdata(b'b') in row.sends(p, q)
    for words, unknown in (([NONE], NONE), ([NONE, H], NONE), ([H, NONE], H), ([m, NONE, H], NONE), ([m, r, H], H), ([NONE, m], NONE)):
        row.refuses(['packets', *words], 'UnknownRevision ' + unknown)
    for words in (['packets'], ['packets', 'ABC'], ['packets', m, m[:-1]], ['packets', '--resolve', m], ['packets', '--key=' + KEY, m]):
        row.asks(words, 2, 'usage\n')
    row.reads(whole, counts(0, 0, 0))
    row.reads(row.sends(m, r), counts(0, 0, 0))
    return row


def sent_and_read():
    of, r, p, q, m = sender()
    text = of.sends(m)
    row = Packeted('What was sent is read into an empty store, where it is found, and sent again as the same text.', files=())
    row.reads(text, counts(3, 4, 8))
    row.reads(text, counts(0, 0, 0))
    row.tells_all()
    assert row.sends(m) == text
    row.sends(m, p)
    row.heads('main', m)
    row.heads('a', r)
    row.names_key(KEY, 'k@x')
    row.lists(q)
    row.asks(['get_manifest_of', m], 0, manifest({'': None, 'f': HA, 'p': H, 'q': HB, 'c': HB}))
    row.asks(['get_content_changed', m, 'f'], 0, b'content_mark [%s]\n' % p.encode())
    row.asks(['common_ancestors', p, q], 0, r + '\n')
    return row


def sent_in_parts():
    of, r, p, q, m = sender()
    row = Packeted('A store that has some revisions takes the others, and needs the files that it was not sent.', files=())
    for words, told in (([m, r], 'InPacket 4 UnknownParent ' + r), ([m, p], 'InPacket 2 UnknownParent ' + r), ([m, p, q], 'InPacket 4 UnknownParent ' + min(p, q))):
        row.reads(of.sends(*words), told)
    row.is_empty(H, HA, HB)
    row.reads(of.sends(q), counts(2, 2, 7))
    row.tells_all()
    row.reads(of.sends(m, p), 'InPacket 6 UnknownParent ' + p)
    row.reads(of.sends(p, q), counts(1, 1, 0))
    row.reads(of.sends(m, q, p), counts(0, 1, 1))
    row.tells_all()
    # The log has its own order now, and its export that of its log.
    row.sends(m)
    row.sends(m, p)
    return row


def once_each():
    row = Packeted('A file goes once with the first revision that brings it, also where one who asks has it by another.')
    r = row.accepts({'': None, 'f': H}, ('', [add_dir(''), add_file('f', H)]))
    a = row.accepts({'': None, 'f': HA, 'g': HA, 'h': HB}, (r, [add_file('g', HA), add_file('h', HB), patch('f', H, HA)]))
    b = row.accepts({'': None, 'f': H, 'g': HA, 'h': HB}, (a, [patch('f', HA, H)]))
    c = row.accepts({'': None, 'f': HC, 'g': H, 'h': HA}, (b, [patch('f', H, HC), patch('g', HA, H), patch('h', HB, HA)]))
    order = lambda text: re.findall(rb'\[(?:fdata|rdata) ([0-9a-f]{40})', text)
    ids = lambda *of: [one.encode() for one in of]
    assert order(row.sends(c)) == ids(H, r, HA, HB, a, b, HC, c)
    assert order(row.sends(c, r)) == ids(HA, HB, a, H, b, HC, c)
    assert order(row.sends(c, a)) == ids(H, b, HC, HA, c)
    assert order(row.sends(c, b)) == ids(HC, H, HA, c)
    return row


def in_log_order():
    row = Packeted('Revisions go in the order in which they were accepted, each with what is said of it by name, key, value and signature.')
    r = row.accepts({'': None, 'f': H}, ('', [add_dir(''), add_file('f', H)]))
    sides = [row.accepts({'': None, 'f': H, name: H}, (r, [add_file(name, H)])) for name in 'abcde']
    lasts = [row.accepts({'': None, 'f': H, name: H, name + '2': H}, (side, [add_file(name + '2', H)])) for name, side in reversed(list(zip('abcde', sides)))]
    more = lambda name: [add_file(name, H), add_file(name + '2', H)]
    merged = row.accepts({'': None, 'f': H, 'a': H, 'a2': H, 'e': H, 'e2': H}, *two((lasts[0], more('a')), (lasts[-1], more('e'))))
    for name, value, key, signature in (('b', 'x', KEY, b''), ('a', 'y', OTHER, b''), ('a', 'y', KEY, b'\xff'), ('a', 'y', KEY, b'\x01\x00'), ('a', 'y', KEY, b'\x01'), ('ab', '', KEY, b''),
                                        ('a', 'x', OTHER, b''), ('a', '\u00e9', KEY, b''), ('a', '', KEY, b''), ('B', 'x', KEY, b''), ('a', 'yy', KEY, b'')):
        row.certifies(r, name, value, key, signature)
        row.certifies(lasts[0], name, value, key, signature)
    for at in lasts:
        row.sends(at)
    ids = re.findall(rb'\[rdata ([0-9a-f]{40})', row.sends(merged))
    assert ids == [at.encode() for at in (r, sides[0], sides[4], lasts[0], lasts[4], merged)]
    row.sends(lasts[0], merged)
    row.sends(merged, sides[0])
    row.sends(merged, lasts[4], sides[2])
    return row


def any_bytes():
    row = Packeted('A value and a signature of any bytes, and payloads about the length of a line.', files=())
    text = rdata(LONE)
    for size in (0, 1, 2, 3, 53, 54, 55, 108, 109):
        data = bytes((7 * at + 255) % 256 for at in range(size))
        text += rcert(sha(LONE), b'n%d' % size, KEY, data, data[::-1]) + fdata(data)
    row.reads(text, counts(9, 1, 9))
    row.tells_all()
    assert row.sends(sha(LONE)).count(b'[rcert') == 9
    return row


def committed():
    row = Packeted('What commit and merge_heads keep is sent, and read where it is not held yet.')
    r0 = row.commits({'': None, 'f': H}, ('', [add_dir(''), add_file('f', H)]))
    left = row.commits({'': None, 'f': HA}, (r0, [patch('f', H, HA)]))
    right = row.commits({'': None, 'f': H, 'g': HB}, (r0, [add_file('g', HB)]))
    first, second = sorted([(left, [patch('f', H, HA)]), (right, [add_file('g', HB)])])
    merged = row.merges_heads(first[0], second[0], {'': None, 'f': HA, 'g': HB}, second[1], first[1])
    text = row.sends(merged)
    assert text.count(b'[rcert') == 16 and text.count(b'[rdata') == 4
    row.sends(merged, left)
    row.reads(text, counts(0, 0, 0))
    return row


def committed_and_read():
    of = committed()
    merged = list(of.model.log)[-1]
    row = Packeted('The same read into an empty store: its branch has its head there, and is merged no more.', files=())
    row.reads(of.model.sent(merged), counts(3, 4, 16))
    row.tells_all()
    row.heads('main', merged)
    row.refuses(['merge_heads', '--author=a', '--date=d', '--key=' + KEY, 'main'], 'OneHead ' + merged)
    return row


def toyed(tree, *edges):
    """The text of a revision whose manifest has its length for an id."""
    return revision(tree, *edges).replace(sha(manifest(tree)).encode(), toy(manifest(tree)).encode())


class Toyed(Packeted):
    ident = 'toy'

    def __init__(self, title):
        super().__init__(title, files=())
        self.model.ident = toy

    def puts(self, text):
        self.asks(['put_revision'], 0, toy(text) + '\n', text)
        return toy(text)


T_LONE = toyed({'': None}, ('', [add_dir('')]))
T_FILE = toyed({'': None, 'f': toy(b'abc')}, (toy(T_LONE), [add_file('f', toy(b'abc'))]))


def lone_sent():
    row = Toyed('A revision whose id is the length of its text, and its branch, are sent.')
    lone = row.puts(T_LONE)
    row.certifies(lone, 'branch', 'main')
    text = row.sends(lone)
    lines = text.split(b'\n')
    assert len(T_LONE) == 105 and [len(line) for line in lines[1:3]] == [72, 68]
    assert text.endswith(b'[rcert %s\n       branch\n       %s\n       bWFpbg==]\n[end]\n' % (lone.encode(), KEY.encode()))
    return row


def lone_read():
    of = lone_sent()
    row = Toyed('Both are read into an empty store, and once more.')
    row.reads(of.model.sent(toy(T_LONE)), counts(0, 1, 1))
    row.reads(of.model.sent(toy(T_LONE)), counts(0, 0, 0))
    row.names_key(KEY, 'k@x')
    row.tells_all()
    row.reads(rcert(toy(T_LONE), b'branch', 'k@x', b'main'), counts(0, 0, 0))
    row.sends(toy(T_LONE))
    return row


def lone_cut():
    of = lone_sent()
    row = Toyed('They end behind any of their bytes.')
    text = of.model.sent(toy(T_LONE))
    first = len(rdata(T_LONE, toy(T_LONE)))
    for size in range(len(text) - 1):
        if size not in (0, first - 1, first):
            row.reads(text[:size], 'BadPacket %d Truncated' % (1 if size < first else 2))
    row.is_empty()
    row.reads(text[:first - 1], counts(0, 1, 0))
    row.reads(text[:-1], counts(0, 0, 1))
    row.tells_all()
    return row


def child_alone():
    row = Toyed('A revision without its parent.')
    assert len(T_FILE) == 199
    row.reads(rdata(T_FILE, toy(T_FILE)), 'InPacket 1 UnknownParent 0000000000000000000000000000000000000069')
    row.is_empty(toy(b'abc'))
    row.reads(rdata(T_LONE, toy(T_LONE)) + rdata(T_FILE, toy(T_FILE)), 'InPacket 2 UnknownFile ' + toy(b'abc'))
    row.is_empty(toy(b'abc'))
    row.reads(rdata(T_LONE, toy(T_LONE)) + fdata(b'abc', toy(b'abc')) + rdata(T_FILE, toy(T_FILE)), counts(1, 2, 0))
    row.tells_all()
    row.sends(toy(T_FILE))
    return row


def collisions():
    row = Toyed('Other bytes under an id that is held, or that came before.')
    as_toy = lambda data: fdata(data, toy(data))
    row.reads(as_toy(b'abc') + as_toy(b'ab') + as_toy(b'abd'), 'InPacket 3 Collision ' + toy(b'abc'))
    row.is_empty(toy(b'abc'), toy(b'ab'))
    row.reads(as_toy(b'abc') + rdata(T_LONE, toy(T_LONE)), counts(1, 1, 0))
    row.reads(as_toy(b'a') + as_toy(b'xyz'), 'InPacket 2 Collision ' + toy(b'abc'))
    other = T_LONE.replace(b'add_dir ""', b'delete "d"')
    row.reads(as_toy(b'a') + rdata(other[:105], toy(T_LONE)), 'InPacket 2 Collision ' + toy(T_LONE))
    row.asks(['get_file', toy(b'a')], 1, 'refused UnknownFile %s\n' % toy(b'a'))
    row.tells_all()
    return row


def at_random(seed):
    """Inputs made of the packets of a history, of which some are left out, moved, said twice, or have a byte changed."""
    of, r, p, q, m = sender()
    chance = random.Random(seed)
    whole = [text + b'[end]\n' for text in of.sends(m).split(b'[end]\n')[:-1]] + [b'[pubkey k@x]\nAA==\n[end]\n', rcert(r, b'branch', 'k@x', b'side'), rcert(m, b'author', 'K@X', b'me')]
    row = Packeted('Inputs of packets at random.', files=())
    for number in range(20):
        made = [text for text in whole if chance.random() < 0.95]
        for _ in range(chance.choice([0, 0, 1, 2])):
            made.insert(chance.randrange(len(made) + 1), made.pop(chance.randrange(len(made))))
        made += [chance.choice(whole)] * chance.choice([0, 0, 1])
        text = bytearray(b''.join(made[:chance.choice([3, 6, len(made), len(made)])]))
        for _ in range(chance.choice([0, 0, 0, 1, 1, 2])):
            at = chance.randrange(len(text))
            text[at:at + chance.randint(0, 1)] = chance.choice([b'', b'[', b']', b' ', b'\n', b'=', b'A', b'0', b'k', b'[end]', b'\0', b'~'])
        row.reads(bytes(text))
        if number in (4, 9):
            row.names_key(KEY if number == 4 else OTHER, 'k@x')
        row.asks(['graph'], 0, graph_of(row.model.log))
    row.tells_all()
    return row


# A text of a byte more than 64 MiB.
def too_long():
    return b'x' * (LIMIT + 1)


def long_certificates():
    row, many = Packeted('A value and a signature of a byte more than 64 MiB, before what else the certificate is refused for.', files=()), too_long()
    row.reads(rdata(LONE), counts(0, 1, 0))
    told = lambda text, line: row.asks(['read'], 1, 'refused ' + line + '\n', text)
    told(ABC + rcert(NONE, b'branch', 'k@x', b'', many), 'InPacket 2 TextTooLong 67108865')
    told(ABC + rcert(NONE, b'branch', 'k@x', many + b'x', many), 'InPacket 2 TextTooLong 67108866')
    row.lacks(H)
    row.lists(sha(LONE))
    row.asks(['read'], 0, counts(0, 0, 1), rcert(sha(LONE), b'branch', KEY, many[1:]))
    return row


def long_texts():
    row, many = Packeted('A file and a revision of a byte more than 64 MiB, behind a mismatch.', files=()), too_long()
    told = lambda text, line: row.asks(['read'], 1, 'refused ' + line + '\n', text)
    told(ABC + fdata(many), 'InPacket 2 TextTooLong 67108865')
    told(fdata(many, H) + ABC, 'IdMismatch 1 ' + sha(many))
    told(rdata(many), 'InPacket 1 TextTooLong 67108865')
    row.is_empty(H, sha(many))
    return row


def endless():
    row = Packeted('An input of 200 MB without an end, and one that is longer than an input may be.', files=())
    told = lambda text, line: row.asks(['read'], 1, 'refused ' + line + '\n', text)
    told(b'[fdata ' + H.encode() + b']\n' + (b'QUJD' * 18 + b'\n') * (200000000 // 73), 'BadPacket 1 Truncated')
    told(ABC + b'[' * 200000000, 'BadPacket 2 Truncated')
    row.asks(['read'], 9, '', b' ' * 268435457)
    return row


def certified_in(title, order):
    """A history of three revisions, accepted in this order, with certificates in the same, and asked by every command of
    certificates, branches and packets that does not answer in the order of the log."""
    row = Certified(title)
    root = {'': None, 'f': H}
    texts = {'root': revision(root, ('', [add_dir(''), add_file('f', H)]))}
    r = sha(texts['root'])
    for name in 'ab':
        texts[name] = revision({**root, name: H}, (r, [add_file(name, H)]))
    of = {name: sha(text) for name, text in texts.items()}
    for name in order:
        row.asks(['put_revision'], 0, of[name] + '\n', texts[name])
    for name in order:
        row.certifies(of[name], 'branch', 'side' if name == 'root' else 'main')
        row.certifies(of[name], 'author', 'somebody', OTHER, b'signed')
    row.names_key(OTHER, 'k@x')
    for at in of.values():
        row.lists(at)
    row.heads('main', of['a'], of['b'])
    row.heads('side', r)
    row.asks(['branches'], 0, 'main\nside\n')
    row.refuses(['merge_heads', '--author=a', '--date=d', '--key=' + KEY, 'side'], 'OneHead ' + r)
    # Packets: a file, a text that is held, and a certificate whose key goes by its name.
    row.asks(['read'], 0, counts(1, 0, 1), fdata(b'read') + rdata(texts['a']) + rcert(of['a'], b'branch', 'k@x', b'read'))
    row.held.add((of['a'], 'branch', OTHER, 'read', b''))
    row.asks(['read'], 1, 'refused InPacket 2 UnknownRevision %s\n' % NONE, fdata(b'other') + rcert(NONE, b'branch', KEY, b'read'))
    row.heads('read', of['a'])
    row.lists(of['a'])
    merged = row.merges_heads(of['a'], of['b'], {**root, 'a': H, 'b': H}, [add_file('b', H)], [add_file('a', H)])
    last = row.commits({**root, 'a': H, 'b': H, 'c': H}, (merged, [add_file('c', H)]))
    row.heads('main', last)
    row.lists(last)
    return row


def certified_in_one_order():
    return certified_in('A history with certificates.', ['root', 'a', 'b'])


def certified_in_another_order():
    return certified_in('The same history with its certificates in another order answers alike.', ['root', 'b', 'a'])


ROWS = [one_file, faults_behind_good_packets, shapes, mismatches, three_and_a_cut, cut_off, cut_behind_the_first, in_their_order, keys, sent, sent_and_read, sent_in_parts, once_each, in_log_order,
        any_bytes, committed, committed_and_read, certified_in_one_order, certified_in_another_order, *(functools.partial(at_random, seed) for seed in range(10))]
# Those that are many or long stay with the program.
LINED = [made for made in ROWS if made is not cut_off and not isinstance(made, functools.partial)]
TOYS = [lone_sent, lone_read, lone_cut, child_alone, collisions]


# How many calls of the keeper `read` makes that keeps a file, a root with it and a certificate of that, each new to an empty store;
# and `packets` of this root.
READ_CALLS, SENT_CALLS = 8, 7


class Lines:
    """Lines that ask and lines that answer, side by side."""

    def __init__(self):
        self.asked, self.answered = [], []

    def remark(self, text):
        for side in (self.asked, self.answered):
            side.append('# ' + text)

    def ends(self):
        for side in (self.asked, self.answered):
            side.append('')

    def asks(self, words, status, output, given=None, *sets):
        self.asked += sets
        if given is not None:
            self.asked.append('give ' + escaped(given))
        self.asked.append(asking(words))
        self.answered.append(answering(status, output))

    def finds(self, *keys):
        """The first keys of the files, revisions, certificates and meta records."""
        self.asked += ['next 2', 'next 3', 'next 8', 'next 1']
        self.answered += keys or ['none'] * 4


def failing():
    """What a read and an export come to over objects that fail."""
    lines, said = Lines(), (sha(ROOT), b'branch', KEY, b'main')
    text, done = ABC + rdata(ROOT) + rcert(*said), counts(1, 1, 1).encode()
    size = lambda field: '%08x' % len(field) + field.hex()
    keys = [H, sha(ROOT), sha(ROOT) + size(b'branch') + KEY + size(b'main') + size(b''), b'count'.hex()]
    lines.remark('All packets are kept or none, whichever call of the keeper fails.')
    for call in range(1, READ_CALLS + 2):
        fails = call <= READ_CALLS
        lines.asks(['read'], 6 if fails else 0, b'' if fails else done, text, 'store plain sha1 %d' % call)
        if fails:
            lines.finds()
    lines.asks(['read'], 0, done, text, 'store plain sha1')
    lines.finds(*keys)
    lines.ends()
    lines.remark('A source that fails leaves nothing. A sink without room takes a front of the answer, and all is kept.')
    for sets in (['source 1'], ['source 2']):
        lines.asks(['read'], 4, b'', text, 'store plain sha1', *sets)
        lines.finds()
    for room in (0, 10, len(done) - 1):
        lines.asks(['read'], 5, done[:room], text, 'store plain sha1', 'sink %d' % room)
        lines.finds(*keys)
    lines.ends()
    lines.remark('Packets are printed whole, or a front of them where the sink has no more room; where a call of the keeper fails nothing is.')
    for call in range(READ_CALLS + 1, READ_CALLS + SENT_CALLS + 2):
        fails = call <= READ_CALLS + SENT_CALLS
        lines.asks(['read'], 0, done, text, 'store plain sha1 %d' % call)
        lines.asks(['packets', sha(ROOT)], 6 if fails else 0, b'' if fails else text)
    lines.asks(['read'], 0, done, text, 'store plain sha1')
    for room in (0, 1, 100, len(text) - 1):
        lines.asks(['packets', sha(ROOT)], 5, text[:room], None, 'sink %d' % room)
    lines.asks(['packets', sha(ROOT)], 0, text, None, 'sink %d' % len(text))
    lines.ends()
    return lines


def record(table, key, body=b''):
    spelled = lambda data: ''.join('\\x%02x' % byte for byte in data)
    return 'record %d %s %s' % (table, spelled(key), spelled(body))


def damaged():
    """Records that stand for no state, and what shows them."""
    lines, root, said = Lines(), bytes.fromhex(sha(ROOT)), rcert(sha(ROOT), b'branch', 'k@x', b'main')
    logged, at = root + b'\0' * 7 + b'\3\0', b'\0' * 8
    shows = lambda table, key, body: ('damaged %d %s %s\n' % (table, key.hex(), body.hex())).encode()
    made = ['store plain sha1', 'give ' + escaped(ABC + rdata(ROOT)), 'run read']
    told = answering(0, counts(1, 1, 0).encode())
    def after(record_of, *asked):
        lines.asked += [*made, record_of]
        lines.answered.append(told)
        for one in asked:
            lines.asks(*one)
    lines.remark('A content that a text names and that is not held, and a text that spells no revision, are shown by the record of the log.')
    for text in (ROOT.replace(H.encode(), HA.encode()), b'abc', b''):
        after(record(3, root, at + text), (['packets', sha(ROOT)], 8, shows(4, at, logged)), (['packets', NONE], 1, b'refused UnknownRevision %s\n' % NONE.encode()))
    lines.ends()
    lines.remark('A record that is that of no certificate is shown where its revision is sent, and where it is not nothing is looked at.')
    key = root + (6).to_bytes(4, 'big') + b'branch' + bytes.fromhex(KEY) + (4).to_bytes(4, 'big') + b'main' + (0).to_bytes(4, 'big')
    after(record(8, key, b'x'), (['packets', sha(ROOT)], 8, shows(8, key, b'x')), (['packets', sha(ROOT), sha(ROOT)], 0, b''))
    after(record(8, key[:-1]), (['packets', sha(ROOT)], 8, shows(8, key[:-1], b'')))
    lines.ends()
    lines.remark('A record that is no name of a key is passed over where a packet names its key; where the key goes by its id no name is read.')
    after(record(7, bytes.fromhex(KEY), b'no field'), (['read'], 1, b'refused InPacket 2 UnknownKey k@x\n', fdata(b'a') + said), (['get_file', HA], 1, b'refused UnknownFile %s\n' % HA.encode()),
          (['read'], 0, counts(1, 0, 1).encode(), fdata(b'a') + rcert(sha(ROOT), b'branch', KEY, b'main')))
    lines.ends()
    lines.remark('A damage that a packet behind the first meets is shown as well, the record or the key that is missing; the records stay.')
    child, another = fdata(b'a') + rdata(CHILD), fdata(b'b') + rdata(revision({'': None, 'f': sha(b'b')}, ('', [add_dir(''), add_file('f', sha(b'b'))])))
    after(record(4, at, b'abc'), (['read'], 8, shows(4, at, b'abc'), child), (['get_file', HA], 1, b'refused UnknownFile %s\n' % HA.encode()))
    after(record(5, at, b'abc'), (['read'], 8, shows(5, at, b'abc'), child), (['get_file', HA], 1, b'refused UnknownFile %s\n' % HA.encode()))
    after(record(1, b'count', b'\0' * 7 + b'\2'), (['read'], 8, b'missing 4 0000000000000001\n', another))
    lines.ends()
    return lines


def in_sessions():
    """Some of the rows, each as one session."""
    import sessions
    lines = Lines()
    lines.remark('Some of these histories once more, each as one session.')
    for made in (one_file, keys, sent_in_parts, committed_and_read, child_alone):
        row = made()
        data = b'\n'.join(sessions.request(*words) if given is None else sessions.request(*words, given) for words, given, _, _ in row.steps)
        want = sessions.answers(*((status, output) for _, _, status, output in row.steps))
        lines.asks(['stdio'], 0, want, data, 'store plain ' + row.ident, 'sink %d' % len(want))
    lines.ends()
    return lines


def write(folder):
    asked, answered = merged_rows.lines(LINED + TOYS)
    for lines in (in_sessions(), failing(), damaged()):
        asked += lines.asked
        answered += lines.answered
    merged_rows.write_lines(folder, asked, answered)


if __name__ == '__main__':
    if sys.argv[1:2] == ['lines']:
        write(sys.argv[2])
    else:
        merged_rows.run(ROWS, sys.argv[1:], [long_certificates, long_texts, endless])
