#!/bin/bash
# What a store in a file costs, as ratios to peers in the same run: a put of 64 MiB against git hash-object -w, a command on
# a small store against one insert by sqlite3, 1,000 puts one after the other against as many of git's, and the peak of
# memory. The best of five counts, of the thousand puts the only run.
cd "$(dirname "${BASH_SOURCE[0]}")/.." || exit 1
./mtn --version >/dev/null || exit 1
work=$(mktemp -d)
trap 'rm -rf "$work"' EXIT

python3 - "$work" "$PWD/target/mtn" <<'PYTHON'
import os, subprocess, sys, time
work, mtn = sys.argv[1:]
os.chdir(work)
body = os.urandom(64 << 20)
open('body', 'wb').write(body)
subprocess.run(['git', 'init', '-q', 'peer'], check=True)

def clean(*names):
    for name in names:
        for path in (name, name + '-wal', name + '-journal', name + '-shm'):
            if os.path.exists(path):
                os.remove(path)

def once(command, source, cwd='.'):
    with open(source, 'rb') as file:
        start = time.monotonic()
        subprocess.run(command, stdin=file, stdout=subprocess.DEVNULL, check=True, cwd=cwd)
        return time.monotonic() - start

def best(prepare, command, source, cwd='.'):
    times = []
    for _ in range(5):
        prepare()
        times.append(once(command, source, cwd))
    return min(times)

def new_peer():
    subprocess.run(['rm', '-rf', 'peer'], check=True)
    subprocess.run(['git', 'init', '-q', 'peer'], check=True)

put = best(lambda: clean('big.mtn'), [mtn, 'big.mtn', 'put_file'], 'body')
git = best(new_peer, ['git', 'hash-object', '-w', '--stdin'], 'body', 'peer')
print(f'put of 64 MiB: {put / git:.2f} times git hash-object -w (at most 3.5)')

clean('big.mtn')
with open('body', 'rb') as file:
    process = subprocess.Popen([mtn, 'big.mtn', 'put_file'], stdin=file, stdout=subprocess.DEVNULL)
    _, status, usage = os.wait4(process.pid, 0)
assert status == 0
print(f'peak memory of that put: {usage.ru_maxrss * 1024 / len(body):.1f} times the body (at most 14)')

open('small', 'wb').write(b'abc')
start = best(lambda: clean('small.mtn'), [mtn, 'small.mtn', 'put_file'], 'small')
insert = best(lambda: clean('small.db'), ['sqlite3', 'small.db', "CREATE TABLE kept (name BLOB PRIMARY KEY, body BLOB); INSERT INTO kept VALUES (x'01', x'616263')"], 'small')
print(f'a command on an empty store: {start / insert:.2f} times sqlite3 (at most 4)')

def thousand(command, cwd='.'):
    start = time.monotonic()
    for i in range(1000):
        subprocess.run(command, input=b'file %d\n' % i, stdout=subprocess.DEVNULL, check=True, cwd=cwd)
    return time.monotonic() - start

clean('many.mtn')
puts = thousand([mtn, 'many.mtn', 'put_file'])
new_peer()
peers = thousand(['git', 'hash-object', '-w', '--stdin'], 'peer')
print(f'1,000 puts one after the other: {puts / peers:.2f} times git hash-object -w (at most 15)')

size = os.path.getsize('big.mtn') / 1e6
times = []
for _ in range(5):
    begun = time.monotonic()
    ended = subprocess.run([mtn, 'big.mtn', 'get_file', '0' * 40], stdout=subprocess.DEVNULL).returncode
    assert ended == 1, ended
    times.append(time.monotonic() - begun)
print(f'opening a store of {size:.0f} MB: {1000 * min(times) / size:.1f} ms a MB')
PYTHON
