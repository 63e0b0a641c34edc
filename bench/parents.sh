#!/bin/bash
# Makes a store file of 100,000 revisions in a line, by sqlite3 and the formats of docs/FORMATS.md, and asks for the parents
# of the last, and for what it has that the tenth before it has not: each as a multiple of what opening the store takes, in the same
# run. The best of five counts.
cd "$(dirname "${BASH_SOURCE[0]}")/.." || exit 1
./mtn --version >/dev/null || exit 1
work=$(mktemp -d)
trap 'rm -rf "$work"' EXIT

PYTHONDONTWRITEBYTECODE=1 PYTHONPATH=bench python3 - "$work" "$PWD/target/mtn" <<'PYTHON'
import os, sqlite3, subprocess, sys, time
from line import records
work, mtn = sys.argv[1:]
store = os.path.join(work, 's.mtn')
COUNT = 100000

ids = []
subprocess.run([mtn, store, 'put_file'], stdin=subprocess.DEVNULL, stdout=subprocess.DEVNULL, check=True)
database = sqlite3.connect(store)
database.executemany('INSERT OR REPLACE INTO kept (kind, name, body) VALUES (?, ?, ?)', records(COUNT, ids))
database.commit()
database.close()

def best(status, *words):
    times = []
    for _ in range(5):
        start = time.monotonic()
        ended = subprocess.run([mtn, store, *words], stdout=subprocess.PIPE)
        times.append(time.monotonic() - start)
        assert ended.returncode == status, ended
    return min(times), ended.stdout

parent, child = ids[-2:]
opening, _ = best(1, 'get_file', '0' * 40)
asked, told = best(0, 'parents', child.hex())
assert told == parent.hex().encode() + b'\n', told
print(f'parents in a store of 100,000 revisions: {asked:.2f} s, opening it {opening:.2f} s: {asked / opening:.2f} times (at most 1.2)')
asked, told = best(0, 'ancestry_difference', child.hex(), ids[-11].hex())
assert told == b''.join(id.hex().encode() + b'\n' for id in ids[-10:]), told
print(f'ancestry_difference of near revisions there: {asked:.2f} s: {asked / opening:.2f} times')
PYTHON
