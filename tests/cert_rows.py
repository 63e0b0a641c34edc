#!/usr/bin/env python3
"""Worked histories with certificates, key names, branches and heads: what is held, what is listed, each refusal in its order. The
texts are made here, by the formats of docs/FORMATS.md. Through the built program; ends with 'N passed, M failed'. With the word
'lines' and a folder it writes the same rows as lines of `mtn_cases_store`, asked and answered."""
import base64
import sys

import merged_rows
import revisions
from merged_rows import H, HA, HB, Row, conflict, node, pick, resolutions
from revisions import add_dir, add_file, bracketed, delete, patch, quoted, rename, sha, spell

KEY, OTHER, THIRD = '1' * 40, '2' * 40, 'ab' * 20
SAID = ('an author', 'main', 'what changed', '2026-11-28T13:00:00')


class Certified(Row):
    """A history whose certificates are kept beside it, as a model."""

    def __init__(self, title, **more):
        super().__init__(title, **more)
        self.held, self.names = set(), {}

    def root(self):
        return self.accepts({'': None, 'f': H}, ('', [add_dir(''), add_file('f', H)]))

    def child(self, parent, name):
        return self.accepts({'': None, 'f': H, name: H}, (parent, [add_file(name, H)]))

    def names_key(self, key, name):
        self.asks(['key', key, name], 0, '')
        self.names[key] = name

    def certifies(self, revision, name, value, key=KEY, signature=b''):
        sig = ['--sig=' + base64.b64encode(signature).decode()] if signature else []
        self.asks(['cert', '--key=' + key, *sig, revision, name, value], 0, '')
        self.held.add((revision, name, key, value, signature))

    def refuses(self, words, line, given=None):
        self.asks(words, 1, 'refused ' + line + '\n', given)

    def lists(self, revision):
        """Exactly the certificates of the revision, by name, key, value and signature."""
        of = sorted((n.encode(), bytes.fromhex(k), v.encode(), s) for r, n, k, v, s in self.held if r == revision)
        stanzas = []
        for name, key, value, signature in of:
            named = self.names.get(key.hex())
            stanzas.append([('key', bracketed(key.hex())), *([('key_name', quoted(named))] if named else []), ('name', quoted(name.decode())),
                            ('value', quoted(value.decode())), ('signature', quoted(base64.b64encode(signature).decode()))])
        self.asks(['certs', revision], 0, spell(stanzas))

    def heads(self, branch, *ids):
        self.asks(['heads', branch], 0, ''.join(of + '\n' for of in sorted(ids)))

    def says(self, revision, said, key=KEY):
        for name, value in zip(('author', 'branch', 'changelog', 'date'), said):
            self.held.add((revision, name, key, value, b''))

    def commits(self, tree, *edges, said=SAID, key=KEY):
        text = revisions.revision(tree, *edges)
        options = ['--%s=%s' % pair for pair in zip(('author', 'branch', 'changelog', 'date'), said)]
        self.asks(['commit', *options, '--key=' + key], 0, sha(text) + '\n', text)
        self.says(sha(text), said, key)
        return sha(text)

    def merges_heads(self, left, right, tree, of_left, of_right, said=('a merger', 'main', '2026-11-28'), resolved=None):
        """The merge of two heads in ascending order, with its changelog."""
        text = revisions.revision(tree, *revisions.two((left, of_left), (right, of_right)))
        author, branch, date = said
        flag = [] if resolved is None else ['--resolve']
        self.asks(['merge_heads', '--date=' + date, *flag, '--author=' + author, '--key=' + KEY, branch], 0, sha(text) + '\n', resolved)
        log = "merge of '%s'\n     and '%s'" % tuple(sorted([left, right]))
        self.says(sha(text), (author, branch, log, date))
        self.asks(['get_revision', sha(text)], 0, text)
        return sha(text)


def names_and_keys():
    row = Certified('Certificates are listed with the names of their keys.')
    r = row.root()
    row.lists(r)
    row.certifies(r, 'branch', 'main')
    row.lists(r)
    row.names_key(KEY, 'k@x')
    row.lists(r)
    row.certifies(r, 'branch', 'main')
    row.certifies(r, 'branch', 'main', OTHER)
    row.certifies(r, 'author', 'someone "else" \\ here', THIRD, b'\x00\xff signed')
    row.certifies(r, 'branch', 'a', KEY, b'xyz')
    row.certifies(r, 'branch', 'a', KEY, b'xy')
    row.certifies(r, 'z!~', '')
    row.lists(r)
    row.names_key(OTHER, 'k@x')
    row.names_key(OTHER, 'k@x')
    row.lists(r)
    other = row.child(r, 'g')
    row.lists(other)
    row.certifies(other, 'branch', 'main')
    row.lists(other)
    row.lists(r)
    return row


def refused_certificates():
    row = Certified('A certificate is refused for its signature, its name, its revision, in this order.')
    r, none = row.root(), 'c' * 40
    cert = lambda *words: ['cert', '--key=' + KEY, *words]
    for sig in ('YQ', 'YQ=', 'YR==', 'YW J', 'YWJj\n', '====', 'YWI*', 'YWJjZA'):
        row.refuses(cert('--sig=' + sig, none, '', 'v'), 'BadField signature')
    for name in ('', 'a b', 'a[', 'a]', 'n' * 256, '\x7f', '\u00e9'):
        row.refuses(cert(none, name, 'v'), 'BadField name')
    row.refuses(cert(none, 'branch', 'v'), 'UnknownRevision ' + none)
    row.refuses(['certs', none], 'UnknownRevision ' + none)
    row.certifies(r, 'n' * 255, 'v', KEY, b'abc')
    row.asks(cert('--sig=', r, 'branch', 'v'), 0, '')
    row.held.add((r, 'branch', KEY, 'v', b''))
    row.lists(r)
    for words in (['cert', r, 'branch', 'v'], ['cert', '--key=' + '1' * 39, r, 'branch', 'v'], ['cert', '--key=' + 'A' * 40, r, 'branch', 'v'], cert(r, 'branch'),
                  ['cert', '--key=' + KEY, '--resolve', r, 'branch', 'v'], ['certs'], ['certs', r, r]):
        row.asks(words, 2, 'usage\n')
    return row


def refused_names():
    row = Certified('A key keeps its first name.', files=())
    for name in ('', 'a b', '[', ']', 'n' * 256, '\u00e9'):
        row.refuses(['key', KEY, name], 'BadField key')
    row.names_key(KEY, 'k@x')
    row.refuses(['key', KEY, 'other@x'], 'KeyNamed %s k@x' % KEY)
    row.names_key(KEY, 'k@x')
    row.names_key(OTHER, 'k@x')
    row.names_key(THIRD, 'n' * 255)
    row.refuses(['key', THIRD, 'k@x'], 'KeyNamed %s %s' % (THIRD, 'n' * 255))
    for words in (['key', KEY], ['key', '1' * 39, 'k@x'], ['key', KEY, 'k@x', 'more'], ['key', '--key=' + KEY, KEY, 'k@x']):
        row.asks(words, 2, 'usage\n')
    return row


def branches():
    row = Certified('A head is a member that no member descends from, through members or not.')
    row.asks(['branches'], 0, '')
    row.heads('main')
    merge = ['merge_heads', '--author=a', '--date=d', '--key=' + KEY]
    row.refuses([*merge, 'main'], 'NoBranch')
    r = row.root()
    p = row.child(r, 'p')
    q = row.accepts({'': None, 'f': H, 'p': H, 'q': H}, (p, [add_file('q', H)]))
    s = row.child(r, 's')
    row.certifies(r, 'branch', 'main')
    row.heads('main', r)
    row.refuses([*merge, 'main'], 'OneHead ' + r)
    row.certifies(q, 'branch', 'main', OTHER)
    row.heads('main', q)
    row.certifies(s, 'branch', 'main', KEY, b'signed')
    row.heads('main', q, s)
    row.certifies(p, 'author', 'main')
    row.certifies(p, 'branch', 'a branch')
    row.certifies(p, 'branch', '')
    row.heads('a branch', p)
    row.heads('', p)
    row.heads('mai')
    row.asks(['branches'], 0, '\na branch\nmain\n')
    row.merges_heads(q, s, {'': None, 'f': H, 'p': H, 'q': H, 's': H}, [add_file('s', H)], [add_file('p', H), add_file('q', H)])
    for words in (['heads'], ['heads', 'a', 'b'], ['branches', 'a'], ['heads', '--resolve', 'a'], [*merge], ['merge_heads', '--author=a', '--key=' + KEY, 'main'],
                  [*merge, '--date=e', 'main'], [*merge, '--changelog=c', 'main']):
        row.asks(words, 2, 'usage\n')
    return row


def commits():
    row = Certified('A renamed folder and its patched files, committed and merged.')
    paths = ['src/f%02d' % number for number in range(1, 41)]
    tree = {'': None, 'src': None, **{path: H for path in paths}}
    r0 = row.commits(tree, ('', [add_dir(''), add_dir('src'), *[add_file(path, H) for path in paths]]))
    row.heads('main', r0)
    left = row.commits({**tree, 'src/f01': HA}, (r0, [patch('src/f01', H, HA)]))
    moved = {path.replace('src', 'lib'): content for path, content in {**tree, 'src/f02': HB}.items()}
    right = row.commits(moved, (r0, [rename('src', 'lib'), patch('lib/f02', H, HB)]))
    row.heads('main', left, right)
    row.lists(left)
    merged = row.merges_heads(left, right, {**moved, 'lib/f01': HA}, [rename('src', 'lib'), patch('lib/f02', H, HB)], [patch('lib/f01', H, HA)])
    row.heads('main', merged)
    row.lists(merged)
    row.refuses(['merge_heads', '--author=a', '--date=d', '--key=' + KEY, 'main'], 'OneHead ' + merged)
    row.asks(['branches'], 0, 'main\n')
    return row


def commits_again():
    row = Certified('A text that is held is committed with what is said of it.')
    edges = ('', [add_dir(''), add_file('f', H)])
    r = row.accepts({'': None, 'f': H}, edges)
    row.lists(r)
    row.commits({'': None, 'f': H}, edges)
    row.lists(r)
    row.commits({'': None, 'f': H}, edges, said=('another', 'side', '', SAID[3]), key=OTHER)
    row.commits({'': None, 'f': H}, edges)
    row.lists(r)
    row.heads('side', r)
    options = ['--%s=%s' % pair for pair in zip(('author', 'branch', 'changelog', 'date'), SAID)]
    wrong = revisions.revision({'': None, 'f': HA}, edges)
    row.asks(['commit', *options, '--key=' + KEY], 1, b'refused ManifestDiffers %s\n' % sha(revisions.manifest({'': None, 'f': H})).encode(), wrong)
    row.asks(['commit', *options, '--key=' + KEY], 1, 'refused BadOrder 1\n', b'')
    row.lists(r)
    for words in (['commit', *options], ['commit', *options, '--key=k@x'], ['commit', *options[1:], '--key=' + KEY], ['commit', *options, '--key=' + KEY, 'main'],
                  ['commit', *options, '--key=' + KEY, '--sig=']):
        row.asks(words, 2, 'usage\n', b'')
    return row


def heads_that_clash():
    row = Certified('A merge of heads has conflicts, and is resolved; the two least of three are merged.')
    r0 = row.commits({'': None, 'f': H}, ('', [add_dir(''), add_file('f', H)]))
    sides = sorted([(row.commits({'': None, 'f': content}, (r0, [patch('f', H, content)])), content) for content in (HA, HB, merged_rows.HC)])
    (left, of_left), (right, of_right), (third, of_third) = sides
    row.heads('main', left, right, third)
    f = (r0, 'f')
    text = spell([revisions.HEAD, [('left', bracketed(left)), ('right', bracketed(right))],
                  conflict('content', node('node', f), ('left_content', bracketed(of_left)), ('right_content', bracketed(of_right)))])
    words = ['merge_heads', '--author=a merger', '--date=2026-11-28', '--key=' + KEY]
    row.asks([*words, 'main'], 3, text)
    row.heads('main', left, right, third)
    row.refuses([*words, '--resolve', 'main'], 'NotText 3', b'abc')
    merged = row.merges_heads(left, right, {'': None, 'f': of_left}, [], [patch('f', of_right, of_left)], resolved=resolutions(pick(f, of_left)))
    row.lists(merged)
    row.heads('main', merged, third)
    return row


ROWS = [names_and_keys, refused_certificates, refused_names, branches, commits, commits_again, heads_that_clash]

if __name__ == '__main__':
    merged_rows.run(ROWS, sys.argv[1:])
