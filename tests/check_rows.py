#!/usr/bin/env python3
"""Asks `check` of stores that are whole and of damaged ones, through the built program, and compares what it shows with the first
damage that a model finds here: the records of the store before it was damaged are those that are due. Worked stores with each record
missing, cut and exchanged and with bytes changed in turn, and a random history with random damages. Takes a seed and how many random
damages (1 and 1000 where not given); ends with 'N passed, M failed'."""
import contextlib
import hashlib
import os
import random
import sqlite3
import subprocess
import sys
import tempfile

sys.dont_write_bytecode = True
sys.path.insert(0, os.path.dirname(os.path.abspath(__file__)))
import generated
import revisions
from revisions import MTN, Store, add_dir, add_file, patch, rename, revision, sha, verdict

META, FILES, TEXTS, LOG, ROSTERS, KEYS, CERTS = 1, 2, 3, 4, 5, 7, 8
COUNT, VERSION = b'count', b'version'
KEY = '1' * 40
MOST = 2 ** 31


def number(value):
    return value.to_bytes(8, 'big')


def bad(table, key, body):
    return ('damaged %d %s %s\n' % (table, key.hex(), body.hex())).encode()


def missing(table, key):
    return ('missing %d %s\n' % (table, key.hex())).encode()


def is_field(text):
    return 0 < len(text) < 256 and all(0x21 <= byte <= 0x7e and byte not in b'[]' for byte in text)


def parts_of(key):
    """The revision, name, key, value and signature of a certificate's record, or None."""
    parts, at = [], 0
    for kind in ('id', 'field', 'id', 'field', 'field'):
        if kind == 'id':
            size = 20
        else:
            if at + 4 > len(key):
                return None
            size, at = int.from_bytes(key[at:at + 4], 'big'), at + 4
        if at + size > len(key):
            return None
        parts.append(key[at:at + size])
        at += size
    return parts if at == len(key) and is_field(parts[1]) else None


def entry_of(body, at):
    """The id of a record of the log at a position, or None where it is none."""
    if len(body) < 29 or body[28] > 2 or len(body) != 29 + 8 * body[28]:
        return None
    parents = [int.from_bytes(body[29 + 8 * k:37 + 8 * k], 'big') for k in range(body[28])]
    return body[:20] if all(parent < at for parent in parents) else None


def contents_named(text):
    """The contents that a revision's text adds or patches to."""
    lines = text.decode().split('\n')
    return [bytes.fromhex(line.split()[1][1:-1]) for line in lines if line.split()[:1] in (['content'], ['to']) and '[' in line]


class Model:
    """What is due: the records of a whole store."""

    def __init__(self, records):
        self.due = {(table, key): body for table, key, body in records}
        self.count = int.from_bytes(self.due.get((META, COUNT), number(0)), 'big')
        self.ids = [self.due[LOG, number(at)][:20] for at in range(self.count)]

    def first(self, records):
        """What `check` prints of other records, and its status."""
        held = {(table, key): body for table, key, body in records}
        if held.get((META, VERSION)) == b'1':
            return 1, b'refused OldStore 1\n'
        damage = self.before_walk(held)
        if damage is None and (META, COUNT) not in held:
            return 0, b'ok 0\n'
        count = None if damage else int.from_bytes(held[META, COUNT], 'big')
        damage = damage or self.walk(held, count) or self.behind(held, count)
        return (8, damage) if damage else (0, b'ok %d\n' % count)

    def before_walk(self, held):
        ordered = sorted(held)
        if (META, COUNT) not in held:
            return bad(*ordered[0], held[ordered[0]]) if ordered else None
        count = held[META, COUNT]
        if len(count) != 8 or int.from_bytes(count, 'big') > MOST:
            return bad(META, COUNT, count)
        if (META, VERSION) not in held:
            return missing(META, VERSION)
        if held[META, VERSION] != b'2':
            return bad(META, VERSION, held[META, VERSION])
        for table, key in ordered:
            if table == META and key not in (COUNT, VERSION):
                return bad(table, key, held[table, key])
        for table, key in ordered:
            if table == 0 or table > CERTS:
                return bad(table, key, held[table, key])
        for table, key in ordered:
            if table == FILES and hashlib.sha1(held[table, key]).digest() != key:
                return bad(table, key, held[table, key])

    def walk(self, held, count):
        met = set()
        for at in range(count):
            if (LOG, number(at)) not in held:
                return missing(LOG, number(at))
            body = held[LOG, number(at)]
            name = entry_of(body, at)
            if name is None or name in met:
                return bad(LOG, number(at), body)
            if (TEXTS, name) not in held:
                return missing(TEXTS, name)
            text = held[TEXTS, name]
            # Another text than the one that is due is none that is lawful here, since its id would be another's.
            if at >= self.count or name != self.ids[at] or text != self.due[TEXTS, name]:
                return bad(TEXTS, name, text)
            if any((FILES, content) not in held for content in contents_named(text[8:])):
                return bad(TEXTS, name, text)
            if body != self.due[LOG, number(at)]:
                return bad(LOG, number(at), body)
            if (ROSTERS, number(at)) not in held:
                return missing(ROSTERS, number(at))
            if held[ROSTERS, number(at)] != self.due[ROSTERS, number(at)]:
                return bad(ROSTERS, number(at), held[ROSTERS, number(at)])
            met.add(name)

    def behind(self, held, count):
        placed = {number(at) for at in range(count)}
        for table, key in sorted(held):
            if table == TEXTS and key not in self.ids[:count] or table in (LOG, ROSTERS) and key not in placed:
                return bad(table, key, held[table, key])
        for table, key in sorted(held):
            if table == KEYS and (len(key) != 20 or not is_field(held[table, key])):
                return bad(table, key, held[table, key])
        for table, key in sorted(held):
            if table == CERTS:
                parts = parts_of(key)
                if parts is None or parts[0] not in self.ids[:count] or held[table, key]:
                    return bad(table, key, held[table, key])


class Checked:
    """A store file whose records are exchanged again and again."""

    def __init__(self, folder, records):
        self.path, self.model = os.path.join(folder, 'checked.mtn'), Model(records)
        subprocess.run(MTN + [self.path, 'put_file'], stdin=subprocess.DEVNULL, stdout=subprocess.DEVNULL, check=True)

    def holds(self, name, records, quick=True):
        """Fills the store with these records, and asks it."""
        with contextlib.closing(sqlite3.connect(self.path)) as database:
            database.execute('PRAGMA synchronous = OFF')
            database.execute('DELETE FROM kept')
            database.executemany('INSERT INTO kept VALUES (?, ?, ?)', records)
            database.commit()
        self.asked(name, records)

    def asked(self, name, records):
        ended = subprocess.run(MTN + [self.path, 'check'], stdin=subprocess.DEVNULL, stdout=subprocess.PIPE, stderr=subprocess.PIPE)
        want = self.model.first(records)
        verdict('%s: %d %r, not %r' % (name, ended.returncode, ended.stdout[:200], want), (ended.returncode, ended.stdout, ended.stderr) == (*want, b''))


def small(folder):
    """Two files, a root, a child of it and a merge of two more, a key's name and certificates."""
    store = Store(folder, 'small')
    one, two = store.file(b'abc'), store.file(b'a')
    tree = {'': None, 'f': one}
    root = store.accepted('a root', revision(tree, ('', [add_dir(''), add_file('f', one)])))
    left = store.accepted('a child', revision({'': None, 'f': two}, (root, [patch('f', one, two)])))
    right = store.accepted('another', revision({'': None, 'g': one}, (root, [rename('f', 'g')])))
    status, _, _ = store.ask('merge', left, right)
    verdict('they are merged', status == 0)
    store.ask('key', KEY, 'k@x')
    store.ask('cert', '--key=' + KEY, root, 'branch', 'main')
    store.ask('cert', '--key=' + KEY, '--sig=YWJj', left, 'branch', 'main')
    return store


def altered(records, chance):
    """The records with one that is missing, cut, longer, with another byte, under another key, in another table, or exchanged."""
    records = list(records)
    at = chance.randrange(len(records))
    table, key, body = records[at]
    kind = chance.randrange(8)
    if kind == 0:
        del records[at]
    elif kind == 1 and body:
        records[at] = (table, key, body[:chance.randrange(len(body))])
    elif kind == 2:
        records[at] = (table, key, body + bytes([chance.randrange(256)]))
    elif kind == 3 and body:
        place = chance.randrange(len(body))
        records[at] = (table, key, body[:place] + bytes([body[place] ^ 1 << chance.randrange(8)]) + body[place + 1:])
    elif kind == 4 and key:
        place = chance.randrange(len(key))
        records[at] = (table, key[:place] + bytes([key[place] ^ 1 << chance.randrange(8)]) + key[place + 1:], body)
    elif kind == 5:
        records[at] = (chance.choice((0, 1, 2, 3, 4, 5, 6, 7, 8, 9, 200, 255)), key, body)
    elif kind == 6:
        other = chance.randrange(len(records))
        records[at], records[other] = (table, key, records[other][2]), (*records[other][:2], body)
    else:
        records.append((chance.choice((LOG, ROSTERS)), number(chance.randrange(300)), body))
    return list({(t, k): (t, k, b) for t, k, b in records}.values())


def worked(folder):
    """Stores of a few records under version `2`."""
    checked = Checked(folder, [])
    version = (META, VERSION, b'2')
    checked.asked('a store with one file', [(META, COUNT, number(0)), version, (FILES, bytes.fromhex(sha(b'')), b'')])
    checked.holds('no records', [])
    checked.holds('a version alone', [version])
    checked.holds('an older version', [(META, COUNT, number(0)), (META, VERSION, b'3')])
    checked.holds('a file under another id', [version, (META, COUNT, number(0)), (FILES, number(2).rjust(20, b'\0'), b'abc')])
    checked.holds('a count of one', [version, (META, COUNT, number(1))])
    checked.holds('records in the table that may hold anything', [version, (META, COUNT, number(0)), (6, b'any', b'thing')])
    checked.holds('the same without a count', [(6, b'any', b'thing')])
    checked.holds('a count of nine bytes', [version, (META, COUNT, b'\0' * 9)])
    checked.holds('a count over the limit', [version, (META, COUNT, number(MOST + 1))])
    checked.holds('a certificate of no revision', [version, (META, COUNT, number(0)), (CERTS, bytes(20) + b'\0\0\0\1n' + bytes(20) + bytes(8), b'')])


def each_record(folder):
    """Each record of a small store missing, cut, longer and doubled under a next key, and each of its bytes changed in turn."""
    store = small(folder)
    records = store.records()
    checked = Checked(folder, records)
    checked.holds('the small store', records)
    for at, (table, key, body) in enumerate(records):
        others, name = records[:at] + records[at + 1:], 'record %d of table %d' % (at, table)
        checked.holds(name + ' missing', others)
        checked.holds(name + ' longer', others + [(table, key, body + b'\0')])
        checked.holds(name + ' doubled', records + [(table, key + b'\0', body)])
        if body:
            checked.holds(name + ' cut', others + [(table, key, body[:-1])])
            checked.holds(name + ' without a body', others + [(table, key, b'')])
        for place in range(0, len(body)):
            flipped = body[:place] + bytes([body[place] ^ 1]) + body[place + 1:]
            checked.holds('%s, byte %d' % (name, place), others + [(table, key, flipped)])
    for at in range(len(records)):
        for other in range(at):
            (table, key, body), (less, least, held) = records[at], records[other]
            rest = [record for place, record in enumerate(records) if place not in (at, other)]
            if body != held:
                checked.holds('records %d and %d exchanged' % (other, at), rest + [(table, key, held), (less, least, body)])


def unlawful(folder):
    """An id whose text reads and is not lawful there: it names another manifest, or a content that is not held."""
    store = small(folder)
    records = store.records()
    model = Model(records)
    checked = Checked(folder, records)
    tree = {'': None, 'h': sha(b'abc')}
    for name, text in (('another manifest', revision({'': None}, (model.ids[0].hex(), [rename('f', 'h')]))),
                       ('a content that is not held', revision({'': None, 'f': sha(b'b')}, (model.ids[0].hex(), [patch('f', sha(b'abc'), sha(b'b'))]))),
                       ('a parent that is later', revision({'': None, 'g': sha(b'a')}, (model.ids[3].hex(), [rename('g', 'h')])))):
        at = 1
        entry, key = model.due[LOG, number(at)], bytes.fromhex(sha(text))
        others = [record for record in records if record[:2] not in ((LOG, number(at)), (TEXTS, model.ids[at]))]
        checked.holds(name, others + [(LOG, number(at), key + entry[20:]), (TEXTS, key, number(at) + text)])


def chains(folder):
    """A line of revisions whose rosters are deltas: a wrong base, a wrong depth, and a number that is gone twice."""
    history = generated.generated(40)
    store = Store(folder, 'line')
    for words, payload in history.commands:
        store.ask(*words, given=payload)
    records = store.records()
    checked = Checked(folder, records)
    checked.holds('a line of forty', records)
    status, output, _ = Store(folder, 'made').ask('generate', '40')
    verdict('a generated history is the same', (status, output) == (0, history.summary()))
    verdict('record by record', Store(folder, 'made').records() == records)
    for at, (table, key, body) in enumerate(records):
        if table == ROSTERS and body[0] == 1:
            others = records[:at] + records[at + 1:]
            base, depth, gone = int.from_bytes(body[1:9], 'big'), body[9], int.from_bytes(body[10:18], 'big')
            if base > 0:
                checked.holds('another base', others + [(table, key, body[:1] + number(base - 1) + body[9:])])
            checked.holds('another depth', others + [(table, key, body[:9] + bytes([depth + 1]) + body[10:])])
            checked.holds('a number that is gone', others + [(table, key, body[:10] + number(gone + 1) + number(1) + body[18:])])
            checked.holds('a number that is gone twice', others + [(table, key, body[:10] + number(gone + 2) + number(1) * 2 + body[18:])])
    return records


def damages(folder, records, seed, count):
    chance = random.Random(seed)
    checked = Checked(folder, records)
    for round in range(count):
        damaged = records
        for _ in range(chance.choice((1, 1, 1, 2, 3))):
            damaged = altered(damaged, chance)
        checked.holds('damage %d of seed %d' % (round, seed), damaged)


def main(seed=1, count=1000):
    with tempfile.TemporaryDirectory() as folder:
        for part in (worked, each_record, unlawful):
            with tempfile.TemporaryDirectory(dir=folder) as own:
                part(own)
        damages(folder, chains(folder), seed, count)
    print('%d passed, %d failed' % (revisions.passed, revisions.failed))
    return revisions.failed != 0


if __name__ == '__main__':
    sys.exit(main(*map(int, sys.argv[1:])))
