#!/usr/bin/env python3
"""Migrates stores of the older form through the built program: what becomes of their records, what other commands answer before, bad
key tables and bad records, sessions, and a `migrate` that is killed. The older stores are made by sqlite3 (old_store.py).
Ends with 'N passed, M failed'."""
import contextlib
import os
import random
import shutil
import sqlite3
import subprocess
import sys
import tempfile
import time

sys.dont_write_bytecode = True
sys.path.insert(0, os.path.dirname(os.path.abspath(__file__)))
import revisions
import sessions
from old_store import VERSION, field, key_table, older
from revisions import MTN, Store, add_dir, add_file, left, patch, revision, sha, verdict
from sessions import framed, request

ONE, TWO, THREE = '1' * 40, '2' * 40, 'ab' * 20
NAMES = {ONE: 'k@x', TWO: 'l@x', THREE: 'm@x'}
HEADER = b'format_version "1"\n'
OLD = b'refused OldStore 1\n'
H, I = sha(b'abc'), sha(b'a')
ROOT = revision({'': None, 'f': H}, ('', [add_dir(''), add_file('f', H)]))
CHILD = revision({'': None, 'f': I}, (sha(ROOT), [patch('f', H, I)]))


def made(folder, name):
    """A store of two revisions in the present form, each key with a name, and certificates that differ in one part alone."""
    store = Store(folder, name)
    store.file(b'abc')
    store.file(b'a')
    store.accepted('a root', ROOT)
    store.accepted('its child', CHILD)
    for key, named in NAMES.items():
        store.answers('a key', ['key', key, named], 0, '')
    for key, of, what, value, *signed in ((ONE, ROOT, 'branch', 'main'), (TWO, ROOT, 'branch', 'main'), (ONE, CHILD, 'branch', 'main'), (ONE, CHILD, 'branch', 'main', '--sig=YWJj'),
                                          (ONE, CHILD, 'branch', ''), (THREE, CHILD, 'tag', 'x' * 300)):
        store.answers('a certificate', ['cert', '--key=' + key, *signed, sha(of), what, value], 0, '')
    return store


def record(store, statement, *values):
    with contextlib.closing(sqlite3.connect(store.path)) as database:
        database.execute(statement, values)
        database.commit()


def copied(store, folder, name):
    other = Store(folder, name)
    shutil.copy(store.path, other.path)
    return other


def asks(store, name, words, given, status, output):
    """What is asked changes nothing unless it is Ok."""
    before = store.records()
    ended = store.ask(*words, given=given)
    verdict('%s: %r' % (name, ended), ended == (status, output, b''))
    if status:
        verdict('%s changes nothing' % name, store.records() == before)


def refuses(store, name, table, line):
    asks(store, name, ['migrate'], table, 1, b'refused ' + line + b'\n')


def table_of(*keys):
    return key_table({bytes.fromhex(key): NAMES[key].encode() for key in keys})


def worked(folder):
    new = made(folder, 'new')
    store = copied(new, folder, 'old')
    older(store.path)
    old = store.records()
    for words, given in ((['put_file'], b'x'), (['put_revision'], CHILD), (['get_file', H], b''), (['get_revision', sha(ROOT)], b''), (['get_manifest_of', sha(ROOT)], b''),
                         (['get_roster', sha(ROOT)], b''), (['get_content_changed', sha(ROOT), 'f'], b''), (['get_corresponding_path', sha(ROOT), 'f', sha(CHILD)], b''),
                         (['parents', sha(CHILD)], b''), (['leaves'], b''), (['graph'], b''), (['toposort'], b''), (['merge', sha(ROOT), sha(CHILD)], b''), (['merge', '--resolve', sha(ROOT), sha(CHILD)], b'no text'),
                         (['show_conflicts', sha(ROOT), sha(CHILD)], b''), (['cert', '--key=' + ONE, sha(ROOT), 'tag', 'x'], b''), (['certs', sha(ROOT)], b''), (['key', ONE, 'other'], b''),
                         (['heads', 'main'], b''), (['branches'], b''), (['commit', '--author=a', '--branch=b', '--changelog=c', '--date=d', '--key=' + ONE], CHILD),
                         (['merge_heads', '--author=a', '--date=d', '--key=' + ONE, 'main'], b''), (['packets', sha(CHILD)], b''), (['read'], b'no packet'), (['generate', '4'], b''), (['check'], b'')):
        asks(store, 'over an older store ' + words[0], words, given, 1, OLD)
    asks(store, 'words outside the grammar come first', ['heads'], b'', 2, b'usage\n')
    asks(store, 'migrate has no words', ['migrate', 'x'], table_of(ONE), 2, b'usage\n')
    refuses(store, 'no key is named: the least', HEADER, b'UnknownKey k@x')
    refuses(store, 'the least of two', table_of(ONE), b'UnknownKey l@x')
    refuses(store, 'the least is named', table_of(TWO, THREE), b'UnknownKey k@x')
    whole = key_table({bytes.fromhex(key): named.encode() for key, named in [*NAMES.items(), ('c' * 40, 'nobody@x')]})
    asks(store, 'a table that names all, and one more', ['migrate'], whole, 0, b'keys 4\ncerts 6\n')
    want = sorted([*new.records(), *(row for row in old if row[0] == 6), (7, bytes.fromhex('c' * 40), b'nobody@x')])
    verdict('its records are those of the present form, and the older certificates', store.records() == want)
    asks(store, 'the store is sound', ['check'], b'', 0, b'ok 2\n')
    asks(store, 'its head', ['heads', 'main'], b'', 0, sha(CHILD).encode() + b'\n')
    for of in (ROOT, CHILD):
        verdict('its certificates', store.ask('certs', sha(of)) == new.ask('certs', sha(of)))
    refuses(store, 'migrate once more', whole, b'NotOld')
    refuses(store, 'a fault of the text comes before', b'', b'BadOrder 1')
    with contextlib.closing(sqlite3.connect(store.path)) as database:
        verdict('sqlite3 finds it whole', database.execute('PRAGMA integrity_check').fetchone() == ('ok',))


def tables(folder):
    """Key tables that do not read, over an older store and over a present one."""
    store = made(folder, 'tables')
    new = copied(store, folder, 'present')
    older(store.path)
    whole = table_of(ONE, TWO, THREE)
    faults = [('an id twice', whole + b'\n key [%s]\nname "n@x"\n' % ONE.encode(), b'Repeated 5'), ('a name twice', whole + b'\n key [%s]\nname "k@x"\n' % (b'4' * 40), b'Repeated 5'),
              ('a field too long', HEADER + b'\n key [%s]\nname "%s"\n' % (b'4' * 40, b'n' * 256), b'BadStanza 2'), ('an empty name', HEADER + b'\n key [%s]\nname ""\n' % (b'4' * 40), b'BadStanza 2'),
              ('a key name before the header', whole[len(HEADER) + 1:], b'BadOrder 1'), ('a header twice', whole + b'\n' + HEADER, b'BadOrder 5'),
              ('an id of 39 digits', HEADER + b'\n key [%s]\nname "n@x"\n' % (b'4' * 39), None), ('a name with a space', HEADER + b'\n key [%s]\nname "n x"\n' % (b'4' * 40), b'BadStanza 2'),
              ('no text', b'\n', None)]
    for name, text, line in faults:
        for over in (store, new):
            if line:
                refuses(over, name, text, line)
            else:
                before, ended = over.records(), over.ask('migrate', given=text)
                verdict('%s is refused: %r' % (name, ended), ended[0] == 1 and ended[1].startswith(b'refused NotText ') or ended[1].startswith(b'refused BadStanza '))
                verdict('%s changes nothing' % name, over.records() == before)
    before = store.records()
    ends = {whole.index(b'\n\n', at) + 1 for at in (0, len(HEADER) + 3, len(HEADER) + 60)}
    for cut in range(len(whole)):
        status, output, _ = store.ask('migrate', given=whole[:cut])
        kind = output.split()[1] if len(output.split()) > 1 else b''
        verdict('a table cut after %d bytes: %r' % (cut, output), status == 1 and kind in ((b'UnknownKey',) if cut in ends else (b'NotText', b'BadStanza', b'BadOrder')))
    verdict('none of these changes anything', store.records() == before)


def other_stores(folder):
    empty = Store(folder, 'empty')
    asks(empty, 'a store that is not there', ['migrate'], HEADER, 1, b'refused NotOld\n')
    verdict('and is not made', not os.path.exists(empty.path))
    asks(empty, 'a file is kept', ['put_file'], b'x', 0, sha(b'x').encode() + b'\n')
    refuses(empty, 'a new store', HEADER, b'NotOld')
    store = made(folder, 'neither')
    older(store.path)
    old = copied(store, folder, 'bad')
    record(store, 'UPDATE kept SET body = ? WHERE kind = 1 AND name = ?', b'3', VERSION)
    for words in (['migrate'], ['leaves'], ['check']):
        asks(store, 'a version that is neither, to ' + words[0], words, HEADER, 8, b'damaged 1 76657273696f6e 33\n')
    record(store, 'DELETE FROM kept WHERE kind = 1 AND name = ?', VERSION)
    for words in (['migrate'], ['leaves'], ['check']):
        asks(store, 'no version, to ' + words[0], words, HEADER, 8, b'missing 1 76657273696f6e\n')
    record(store, 'DELETE FROM kept WHERE kind = 1')
    asks(store, 'without a count', ['migrate'], HEADER, 1, b'refused NotOld\n')
    for number, (name, body) in enumerate([(b'\x00', b''), (bytes.fromhex(sha(ROOT)) + field(b'branch') + field(b'k@x') + field(b'main') + field(b''), b'x'),
                                           (bytes.fromhex(sha(ROOT)) + field(b'bad name') + field(b'k@x') + field(b'main') + field(b''), b''),
                                           (bytes.fromhex(sha(ROOT)) + field(b'branch') + field(b'k@x') + field(b'main') + field(b'') + b'x', b'')]):
        damaged = copied(old, folder, 'damaged%d' % number)
        record(damaged, 'INSERT OR REPLACE INTO kept (kind, name, body) VALUES (6, ?, ?)', name, body)
        asks(damaged, 'a bad record of table 6', ['migrate'], table_of(*NAMES), 8, b'damaged 6 %s %s\n' % (name.hex().encode(), body.hex().encode()))
        present = made(folder, 'present%d' % number)
        record(present, 'INSERT OR REPLACE INTO kept (kind, name, body) VALUES (6, ?, ?)', name, body)
        asks(present, 'the same in a present store is never read', ['check'], b'', 0, b'ok 2\n')


def in_a_session(folder):
    store = made(folder, 'session')
    heads = store.ask('heads', 'main')[1]
    older(store.path)
    data = request('heads', 'main') + request('migrate', HEADER) + request('check') + request('migrate', table_of(*NAMES)) + request('heads', 'main') + request('check') + request('migrate', HEADER)
    want = ((1, OLD), (1, b'refused UnknownKey k@x\n'), (1, OLD), (0, b'keys 3\ncerts 6\n'), (0, heads), (0, b'ok 2\n'), (1, b'refused NotOld\n'))
    ended = sessions.session(store.path, data)
    verdict('a session that migrates: %r' % (ended,), ended == (0, b''.join(framed(number, status, text) for number, (status, text) in enumerate(want)), b''))


def killed(folder):
    """A `migrate` that is killed leaves the older store or the new one."""
    store = made(folder, 'killed')
    rows = [(8, bytes.fromhex(sha(ROOT)) + field(b'tag') + bytes.fromhex(ONE) + field(b'%d' % number) + field(b''), b'') for number in range(10000)]
    with contextlib.closing(sqlite3.connect(store.path)) as database:
        database.executemany('INSERT INTO kept (kind, name, body) VALUES (?, ?, ?)', rows)
        database.commit()
    new = store.records()
    older(store.path)
    old = store.records()
    migrated = sorted([*new, *(row for row in old if row[0] == 6)])
    whole, chance, seen = table_of(*NAMES), random.Random(1), []
    start = time.monotonic()
    once = copied(store, folder, 'once')
    asks(once, 'ten thousand certificates', ['migrate'], whole, 0, b'keys 3\ncerts 10006\n')
    spent = time.monotonic() - start
    verdict('are migrated', once.records() == migrated)
    for number in range(20):
        one = copied(store, folder, 'killed%d' % number)
        process = subprocess.Popen([*MTN, one.path, 'migrate'], stdin=subprocess.PIPE, stdout=subprocess.DEVNULL)
        process.stdin.write(whole)
        process.stdin.close()
        time.sleep(chance.random() * spent * 1.1)
        process.kill()
        process.wait()
        behind = Store(folder, 'left%d' % number)
        left(one.path, behind.path)
        held = behind.records()
        verdict('killed, it leaves one of both', held in (old, migrated))
        seen.append(held == migrated)
        with contextlib.closing(sqlite3.connect(behind.path)) as database:
            verdict('and a whole file', database.execute('PRAGMA integrity_check').fetchone() == ('ok',))
        if held == old:
            verdict('and goes on', one.ask('migrate', given=whole) == (0, b'keys 3\ncerts 10006\n', b''))
            verdict('to the same records', one.records() == migrated)
    verdict('it was killed on its way: %r' % seen, not all(seen))


def main():
    with tempfile.TemporaryDirectory() as folder:
        worked(folder)
        tables(folder)
        other_stores(folder)
        in_a_session(folder)
        killed(folder)
    print('%d passed, %d failed' % (revisions.passed, revisions.failed))
    return 1 if revisions.failed else 0


if __name__ == '__main__':
    sys.exit(main())
