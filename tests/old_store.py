#!/usr/bin/env python3
"""Makes a store of the older form of one of the present form, by sqlite3 and the formats of docs/FORMATS.md: `tests/old_store.py STORE`.
Its version is the byte `1` then, each certificate stands in table 6 under the name of its key, and no key has a name beside. Every key
that made a certificate has to have a name."""
import contextlib
import sqlite3
import sys

VERSION = b'version'


def field(data):
    return len(data).to_bytes(4, 'big') + data


def parts_of(key):
    """The revision, name, key, value and signature of a certificate's record in the present form."""
    size = lambda at: int.from_bytes(key[at:at + 4], 'big')
    name = key[24:24 + size(20)]
    at = 24 + len(name)
    value = key[at + 24:at + 24 + size(at + 20)]
    behind = at + 24 + len(value)
    return key[:20], name, key[at:at + 20], value, key[behind + 4:]


def older(path):
    """Turns the store at a path; the names of its keys by their ids."""
    with contextlib.closing(sqlite3.connect(path)) as database:
        names = dict(database.execute('SELECT name, body FROM kept WHERE kind = 7'))
        held = [parts_of(name) for name, in database.execute('SELECT name FROM kept WHERE kind = 8')]
        rows = [(6, revision + field(name) + field(names[key]) + field(value) + field(signature), b'') for revision, name, key, value, signature in held]
        database.execute('DELETE FROM kept WHERE kind IN (6, 7, 8)')
        database.executemany('INSERT INTO kept (kind, name, body) VALUES (?, ?, ?)', rows)
        database.execute('UPDATE kept SET body = ? WHERE kind = 1 AND name = ?', (b'1', VERSION))
        database.commit()
    return names


def key_table(names):
    """The text of a key table; it maps ids to names."""
    return b'format_version "1"\n' + b''.join(b'\n key [%s]\nname "%s"\n' % (key.hex().encode(), names[key]) for key in names)


if __name__ == '__main__':
    older(sys.argv[1])
