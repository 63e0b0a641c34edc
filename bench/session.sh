#!/bin/bash
# What a session of requests costs, into a new store file and over a store in memory, each as a multiple of another program in the
# same run: 20,000 small files put and then got in one session against python's sqlite3 with one transaction for each put, and a
# line of 2,000 revisions with its files against `git fast-import`. Prints how much more work twice the requests are, too. The best
# of three counts; what is put into a file and got in the same session is taken once, since the other's puts take minutes. A request that puts something syncs the file once, where git syncs
# once in all; so the revisions are put into a file in memory as well, where no disk is waited for.
cd "$(dirname "${BASH_SOURCE[0]}")/.." || exit 1
printf '' | ./mtn - put_file >/dev/null || exit 1
PYTHONDONTWRITEBYTECODE=1 PYTHONPATH=bench:tests python3 - target/mtn <<'PYTHON'
import os, resource, sqlite3, subprocess, sys, tempfile, time
from history import history
from revisions import sha
from sessions import request
mtn = sys.argv[1]
FILES, REVISIONS = 20000, 2000

def clock(work):
    start = time.monotonic()
    work()
    return time.monotonic() - start

def best(work, rounds=3):
    """The least time of a work in a new folder."""
    times = []
    for _ in range(rounds):
        with tempfile.TemporaryDirectory() as folder:
            times.append(work(folder))
    return min(times)

def answers(store, data, first):
    """The times to the answer of that number, and from there to the last one, of a session."""
    start = time.monotonic()
    with tempfile.TemporaryFile() as requests:
        requests.write(data)
        requests.seek(0)
        with subprocess.Popen([mtn, store, 'stdio'], stdin=requests, stdout=subprocess.PIPE) as out:
            mark, seen, middle = b'%d:m:' % first, b'', None
            while block := os.read(out.stdout.fileno(), 1 << 16):
                seen = seen[-len(mark):] + block
                if middle is None and mark in seen:
                    middle = time.monotonic()
                end = time.monotonic()
            assert out.wait() == 0, out.returncode
    return middle - start, end - middle

def session(store, data):
    def run():
        out = subprocess.run([mtn, store, 'stdio'], input=data, stdout=subprocess.PIPE)
        assert out.returncode == 0, out.returncode
    return clock(run)

def work(data):
    """The processor's time for a session over a store in memory, which no other work on the machine delays."""
    def spent():
        used = resource.getrusage(resource.RUSAGE_CHILDREN)
        return used.ru_utime + used.ru_stime
    def once(_):
        before = spent()
        session('-', data)
        return spent() - before
    return best(once)

def ratio(name, ours, theirs, most):
    print(f'{name}: {ours:.2f} s, {ours / theirs:.2f} times the other (at most {most})', flush=True)

bodies = [b'%-100d' % i for i in range(FILES)]
puts = [request('put_file', body) for body in bodies]
gets = [request('get_file', sha(body)) for body in bodies]

keys = [bytes.fromhex(sha(body)) for body in bodies]

# It keeps a log and syncs it at each commit, as the program does.
def open_sqlite(folder):
    records = sqlite3.connect(os.path.join(folder, 'other.db'), isolation_level=None)
    records.execute('PRAGMA journal_mode = WAL')
    records.execute('PRAGMA synchronous = FULL')
    return records

def other_puts(records):
    records.execute('CREATE TABLE kept (kind INTEGER, name BLOB, body BLOB, PRIMARY KEY (kind, name)) WITHOUT ROWID')
    def run():
        for key, body in zip(keys, bodies):
            records.execute('BEGIN')
            records.execute('INSERT INTO kept VALUES (2, ?, ?)', (key, body))
            records.execute('COMMIT')
    return clock(run)

def other_gets(records):
    def run():
        for key in keys:
            records.execute('SELECT body FROM kept WHERE kind = 2 AND name = ?', (key,)).fetchone()
    return clock(run)

# Into a new store file in one session, the puts and then the gets; and into a new database over one connection. Then the gets in
# sessions of their own, which open the store: the kit's database reads and checks the whole file there.
with tempfile.TemporaryDirectory() as folder:
    store = os.path.join(folder, 's.mtn')
    put, got = answers(store, b''.join(puts + gets), FILES)
    records = open_sqlite(folder)
    ratio('put_file, 20,000 of 100 bytes', put, other_puts(records), 2)
    other = min(other_gets(records) for _ in range(3))
    ratio('get_file, 20,000, in the same session', got, other, 1)
    opened = best(lambda _: session(store, b''.join(gets)))
    print(f'in a session of their own, with the opening of the store: {opened / other:.2f} times', flush=True)
    print(f'the same less a session of one request, which opens the store: {(opened - best(lambda _: session(store, gets[0]))) / other:.2f} times', flush=True)
print(f'twice the files take {work(b"".join(puts)) / work(b"".join(puts[:FILES // 2])):.2f} times the work in memory', flush=True)

def requests(commands):
    return b''.join(request(*command) for command in commands)

ours, git = history(REVISIONS)
ours, fewer = requests(ours), requests(history(REVISIONS // 2)[0])

def gits(folder):
    subprocess.run(['git', 'init', '-q', '--bare', folder], check=True)
    return clock(lambda: subprocess.run(['git', '-C', folder, 'fast-import', '--quiet'], input=git, check=True))

other = best(gits)
memory = best(lambda folder: session('-', ours))
ratio('2,000 revisions in memory', memory, other, 8)
ratio('2,000 revisions into a file', best(lambda folder: session(os.path.join(folder, 's.mtn'), ours)), other, 12)

def without_disk(_):
    with tempfile.TemporaryDirectory(dir='/dev/shm') as folder:
        return session(os.path.join(folder, 's.mtn'), ours)

ratio('2,000 revisions into a file that no disk holds', best(without_disk), other, 12)
print(f'twice the revisions take {work(ours) / work(fewer):.2f} times the work in memory')
PYTHON
