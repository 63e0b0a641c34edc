#!/bin/bash
# Makes a store file of 100,000 revisions in a line with four certificates each, by sqlite3 and the formats of docs/FORMATS.md, and
# asks for the heads of their branch in a session: what a request takes as a multiple of what sqlite3 takes to print the log and the
# certificates, in the same run, and what the whole session takes, most of which is opening the store: the kit's database checks the
# whole file then, once a session. Prints how much longer ten times the revisions take, and what the certificates of one revision
# take beside opening the store. The best of three counts.
cd "$(dirname "${BASH_SOURCE[0]}")/.." || exit 1
./mtn --version >/dev/null || exit 1
work=$(mktemp -d)
trap 'rm -rf "$work"' EXIT

PYTHONDONTWRITEBYTECODE=1 PYTHONPATH=bench python3 - "$work" "$PWD/target/mtn" <<'PYTHON'
import hashlib, os, sqlite3, subprocess, sys, time
from line import field, records
work, mtn = sys.argv[1:]
KEY = hashlib.sha1(b'key').digest()

def said(at, made):
    """The four certificates of a revision."""
    for name, value in ((b'author', b'somebody'), (b'branch', b'main'), (b'changelog', b'change %d' % at), (b'date', b'2026-11-28T12:00:00')):
        yield 8, made + field(name) + KEY + field(value) + field(b''), b''

def made(count):
    """A store of so many revisions, and the id of the last."""
    store, ids = os.path.join(work, '%d.mtn' % count), []
    subprocess.run([mtn, store, 'put_file'], stdin=subprocess.DEVNULL, stdout=subprocess.DEVNULL, check=True)
    database = sqlite3.connect(store)
    database.executemany('INSERT OR REPLACE INTO kept (kind, name, body) VALUES (?, ?, ?)', records(count, ids, said))
    database.commit()
    database.close()
    return store, ids[-1].hex()

def best(words, data=b''):
    times = []
    for _ in range(3):
        start = time.monotonic()
        told = subprocess.run(words, input=data, stdout=subprocess.PIPE, check=True).stdout
        times.append(time.monotonic() - start)
    return min(times), told

def heads(store, last):
    """What a session takes that asks for the heads, and what one request more takes."""
    spent, told = best([mtn, store, 'stdio'], b'l5:heads4:maine')
    assert told == b'0:m:41:%s\n0:l:1:0' % last.encode(), told
    return spent, (best([mtn, store, 'stdio'], b'l5:heads4:maine' * 3)[0] - spent) / 2

small, large = made(10000), made(100000)
(fewer, asking), (more, request) = heads(*small), heads(*large)
printing, _ = best(['sqlite3', large[0], 'SELECT hex(name), hex(body) FROM kept WHERE kind IN (4, 8)'])
print(f'heads of 100,000 revisions with 400,000 certificates, in a session: {request:.2f} s, sqlite3 printing both tables {printing:.2f} s: {request / printing:.2f} times (at most 5, for the request)')
opening, _ = best([mtn, large[0], 'get_revision', large[1]])
print(f'a session of that request alone: {more:.2f} s, {more / printing:.2f} times (at most 5, with the opening), of which opening the store takes {opening:.2f} s')
print(f'of 10,000 revisions, the request: {asking:.3f} s, so ten times the revisions take {request / asking:.1f} times as long (at most 12); the session: {fewer:.2f} s, {more / fewer:.1f} times')
asked, told = best([mtn, large[0], 'certs', large[1]])
assert told.count(b'name "') == 4, told
print(f'the certificates of one revision: {asked:.3f} s, its text {opening:.3f} s: {asked / opening:.2f} times')
PYTHON
