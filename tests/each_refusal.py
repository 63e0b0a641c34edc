#!/usr/bin/env python3
"""Runs commands over a store file with one request for memory refused, the first, the second and so on until there are no more: each run
is done, or ends with status 7, prints nothing and leaves the store as it was. Needs gcc, for a library that stands before the C library's
`malloc` and `realloc`. Not in the gate: it takes some minutes. `tests/each_refusal.py [STEP]`: each STEP-th request, 1 where not given.
Ends with 'N passed, M failed'."""
import os
import shutil
import subprocess
import sys
import tempfile

sys.dont_write_bytecode = True
sys.path.insert(0, os.path.dirname(os.path.abspath(__file__)))
import revisions
from little_memory import LEFT, RIGHT, SAID, held
from revisions import Store, sha, verdict

# The program itself, not the script that builds it.
PROGRAM = os.environ.get('MTN') or os.path.join(os.path.dirname(os.path.abspath(__file__)), '..', 'target', 'mtn')

# It makes the file TOLD when it refuses the request of this number.
REFUSER = r'''
#include <errno.h>
#include <fcntl.h>
#include <stdlib.h>
#include <unistd.h>
extern void *__libc_malloc(size_t);
extern void *__libc_realloc(void *, size_t);
static unsigned long asked;
static int refuses(void) {
    const char *number = getenv("REFUSED"), *told = getenv("TOLD");
    if (!number || !told || __atomic_add_fetch(&asked, 1, __ATOMIC_SEQ_CST) != strtoul(number, NULL, 10)) return 0;
    close(open(told, O_CREAT | O_WRONLY, 0600));
    errno = ENOMEM;
    return 1;
}
void *malloc(size_t size) { return refuses() ? NULL : __libc_malloc(size); }
void *realloc(void *old, size_t size) { return refuses() ? NULL : __libc_realloc(old, size); }
'''


def refuser(folder):
    """The library."""
    path = os.path.join(folder, 'refuser.so')
    subprocess.run(['gcc', '-O2', '-shared', '-fPIC', '-o', path, '-xc', '-'], input=REFUSER.encode(), check=True)
    return path


def ended(store, words, more):
    """How the program ends over a store, with these variables besides."""
    process = subprocess.run([PROGRAM, store, *words], stdin=subprocess.DEVNULL, stdout=subprocess.PIPE, stderr=subprocess.PIPE, env={**os.environ, **more})
    return process.returncode, process.stdout


def each(folder, library, store, words, step):
    whole, told = os.path.join(folder, 'whole.mtn'), os.path.join(folder, 'told')
    shutil.copy(store.path, whole)
    done = ended(whole, words, {})
    verdict('%s is done with enough: %r' % (words[0], done), done[0] == 0)
    before, after = store.records(), Store(folder, 'whole').records()
    number, wanting = step, 0
    while True:
        one = Store(folder, 'one')
        shutil.copy(store.path, one.path)
        status, output = ended(one.path, words, {'LD_PRELOAD': library, 'REFUSED': str(number), 'TOLD': told})
        if not os.path.exists(told):
            break
        os.remove(told)
        if status == 7:
            wanting += 1
            verdict('%s without request %d prints nothing: %r' % (words[0], number, output), output == b'')
            verdict('and leaves the store', one.records() == before)
        else:
            verdict('%s without request %d is done: %d, %r' % (words[0], number, status, output), (status, output) == done and one.records() == after)
        number += step
    verdict('%s wanted memory %d times in %d' % (words[0], wanting, number // step - 1), wanting > 0)


def main():
    step = int(sys.argv[1]) if len(sys.argv) > 1 else 1
    with tempfile.TemporaryDirectory() as folder:
        library, store = refuser(folder), held(folder)
        for words in (['merge', sha(LEFT), sha(RIGHT)], ['merge_heads', *SAID, 'main'], ['check']):
            each(folder, library, store, words, step)
    print('%d passed, %d failed' % (revisions.passed, revisions.failed))
    return 1 if revisions.failed else 0


if __name__ == '__main__':
    sys.exit(main())
