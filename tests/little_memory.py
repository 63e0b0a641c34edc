#!/usr/bin/env python3
"""Runs commands over a store file with as little memory as makes them refuse it, from none that serves to enough: each run is done, or
ends with status 7, prints nothing and leaves the store as it was. Not in the gate: it takes some minutes. `tests/little_memory.py
[STEP]`: every so many KiB, 64 where not given. Ends with 'N passed, M failed'."""
import os
import resource
import shutil
import subprocess
import sys
import tempfile

sys.dont_write_bytecode = True
sys.path.insert(0, os.path.dirname(os.path.abspath(__file__)))
import revisions
from old_store import key_table, older
from revisions import MTN, Store, add_dir, add_file, patch, rename, revision, sha, verdict

KEY = '1' * 40
ONE, TWO = sha(b'abc'), sha(b'a')
ROOT = revision({'': None, 'f': ONE}, ('', [add_dir(''), add_file('f', ONE)]))
LEFT = revision({'': None, 'f': TWO}, (sha(ROOT), [patch('f', ONE, TWO)]))
RIGHT = revision({'': None, 'g': ONE}, (sha(ROOT), [rename('f', 'g')]))
SAID = ['--author=a', '--date=d', '--key=' + KEY]


def held(folder):
    store = Store(folder, 'held')
    store.file(b'abc')
    store.file(b'a')
    for text in (ROOT, LEFT, RIGHT):
        store.accepted('a revision', text)
    store.answers('a key', ['key', KEY, 'k@x'], 0, '')
    for text in (LEFT, RIGHT):
        store.answers('a certificate', ['cert', '--key=' + KEY, sha(text), 'branch', 'main'], 0, '')
    return store


def under(limit, store, words, given):
    """What the program does with so much address space."""
    process = subprocess.Popen(MTN + [store, *words], stdin=subprocess.PIPE, stdout=subprocess.PIPE, stderr=subprocess.PIPE,
                               preexec_fn=lambda: resource.setrlimit(resource.RLIMIT_AS, (limit, limit)))
    output, _ = process.communicate(given)
    return process.returncode, output


def little(folder, store, words, given, step):
    whole = os.path.join(folder, 'whole.mtn')
    shutil.copy(store.path, whole)
    done = under(resource.RLIM_INFINITY, whole, words, given)
    verdict('%s is done with enough: %r' % (words[0], done), done[0] == 0)
    before, limit, refused = store.records(), 1 << 20, 0
    while True:
        one = Store(folder, 'one')
        shutil.copy(store.path, one.path)
        status, output = under(limit, one.path, words, given)
        if (status, output) == done:
            break
        # Below what the program itself takes it does not start.
        if status == 7:
            refused += 1
            verdict('%s in %d KiB prints nothing: %r' % (words[0], limit >> 10, output), output == b'')
        else:
            verdict('%s in %d KiB ends with %d, %r' % (words[0], limit >> 10, status, output), status < 0 or status > 9)
        verdict('and leaves the store', one.records() == before)
        limit += step << 10
    verdict('%s was refused memory %d times' % (words[0], refused), refused > 0)


def main():
    step = int(sys.argv[1]) if len(sys.argv) > 1 else 64
    with tempfile.TemporaryDirectory() as folder:
        store = held(folder)
        little(folder, store, ['merge', sha(LEFT), sha(RIGHT)], b'', step)
        little(folder, store, ['merge_heads', *SAID, 'main'], b'', step)
        little(folder, store, ['check'], b'', step)
        older(store.path)
        little(folder, store, ['migrate'], key_table({bytes.fromhex(KEY): b'k@x'}), step)
    print('%d passed, %d failed' % (revisions.passed, revisions.failed))
    return 1 if revisions.failed else 0


if __name__ == '__main__':
    sys.exit(main())
