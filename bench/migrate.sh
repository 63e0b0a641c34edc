#!/bin/bash
# What `migrate` of a store file with 100,000 certificates by 100 keys costs, as a multiple of what sqlite3 takes to insert the same rows
# from the older ones with a join on the keys, in one transaction, in the same run. The older store is made by sqlite3, each time anew.
# The best of three counts. Given a path, that program is measured.
source "$(dirname "${BASH_SOURCE[0]}")/program.sh" || exit 1
measured <<'PYTHON'
import hashlib, os, shutil, sqlite3, subprocess, sys, time
from line import field, records
from old_store import key_table
mtn, work = sys.argv[1:]
CERTS, KEYS, ROUNDS = 100000, 100, 3
names = {hashlib.sha1(b'key %d' % number).digest(): b'k%d@x' % number for number in range(KEYS)}
path = lambda name: os.path.join(work, name)

def made():
    """A store of the older form: a line of 1,000 revisions with a hundred certificates each; and the parts of each."""
    store, ids, parts = path('old.mtn'), [], []
    subprocess.run([mtn, store, 'put_file'], stdin=subprocess.DEVNULL, stdout=subprocess.DEVNULL, check=True)
    database = sqlite3.connect(store)
    database.executemany('INSERT OR REPLACE INTO kept (kind, name, body) VALUES (?, ?, ?)', records(1000, ids, lambda at, made: ()))
    keys = list(names)
    for number in range(CERTS):
        parts.append((ids[number % 1000], b'tag', keys[number % KEYS], b'value %d' % number, b''))
    database.executemany('INSERT INTO kept (kind, name, body) VALUES (6, ?, ?)',
                         ((of + field(name) + field(names[key]) + field(value) + field(signature), b'') for of, name, key, value, signature in parts))
    database.execute("UPDATE kept SET body = x'31' WHERE kind = 1 AND name = CAST('version' AS BLOB)")
    database.commit()
    database.close()
    return store, parts

store, parts = made()

def ours():
    copy = path('ours.mtn')
    shutil.copy(store, copy)
    start = time.monotonic()
    told = subprocess.run([mtn, copy, 'migrate'], input=key_table(names), stdout=subprocess.PIPE, check=True).stdout
    spent = time.monotonic() - start
    assert told == b'keys %d\ncerts %d\n' % (KEYS, CERTS), told
    return spent

def peer():
    """The same rows, from a table of the older certificates' parts and one of the keys."""
    copy = path('peer.db')
    if os.path.exists(copy):
        os.remove(copy)
    database = sqlite3.connect(copy)
    database.execute('CREATE TABLE kept (kind INTEGER NOT NULL, name BLOB NOT NULL, body BLOB NOT NULL, PRIMARY KEY (kind, name)) STRICT')
    database.execute('CREATE TABLE old (head BLOB, key BLOB, rest BLOB)')
    database.execute('CREATE TABLE keys (name BLOB PRIMARY KEY, id BLOB)')
    database.executemany('INSERT INTO keys VALUES (?, ?)', ((named, key) for key, named in names.items()))
    database.executemany('INSERT INTO old VALUES (?, ?, ?)', ((of + field(name), names[key], field(value) + field(signature)) for of, name, key, value, signature in parts))
    database.commit()
    database.close()
    script = "INSERT INTO kept SELECT 8, CAST(head || id || rest AS BLOB), x'' FROM old JOIN keys ON old.key = keys.name; INSERT INTO kept SELECT 7, id, name FROM keys;"
    start = time.monotonic()
    subprocess.run(['sqlite3', copy, 'BEGIN;' + script + 'COMMIT;'], check=True)
    spent = time.monotonic() - start
    count = sqlite3.connect(copy).execute('SELECT count(*) FROM kept WHERE kind = 8').fetchone()[0]
    assert count == CERTS, count
    return spent

mine, theirs = min(ours() for _ in range(ROUNDS)), min(peer() for _ in range(ROUNDS))
print(f'migrate of {CERTS:,} certificates: {mine:.3f} s, sqlite3 insert .. select of the same rows {theirs:.3f} s: {mine / theirs:.2f} times (at most 10)')
PYTHON
