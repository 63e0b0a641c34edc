#!/bin/sh
# Lists the conflicts of 100,000 decided nodes: in one directory, in a chain of 1,000 directories, and with 10,000 loops of two.
# Prints the times as multiples of building such a roster (of the last, before either side moved anything) in the same run:
# with its entries shuffled, and ascending, where it only takes them.
set -eu
cd "$(dirname "$0")/.."
PYTHONDONTWRITEBYTECODE=1 PYTHONPATH="$PWD/bench:$PWD/tests" python3 - <<'PYTHON'
import random
from measure import answer, least, steps
from merged import spelled

ROOT = {'1:': ['-', '-', 'dir']}
name = '1:node_%05d'.__mod__

# all nodes below the root
def flat():
    return {**ROOT, **{name(k): ['1:', 'file_%05d' % k, '2'] for k in range(1, 100000)}}

# the first of each hundred nodes is the directory of the others, and hangs below the one before
def chain():
    made = dict(ROOT)
    for k in range(1, 100000):
        above = name(k - k % 100) if k % 100 else name(k - 100) if k > 100 else '1:'
        made[name(k)] = [above if k > 100 or k % 100 == 0 else '1:', '%d' % k, '2' if k % 100 else 'dir']
    return made

# twenty thousand directories among the nodes below the root
def pairs():
    made = flat()
    for k in range(1, 20001):
        made[name(k)] = ['1:', 'file_%05d' % k, 'dir']
    return made

# the base with every other directory below its neighbour
def moved(base, first):
    made = dict(base)
    for k in range(1, 20001, 2):
        one, other = (k, k + 1) if first else (k + 1, k)
        made[name(one)] = [name(other), 'd', 'dir']
    return made

def measure(title, base, left, right, count):
    text = spelled('base', base) + spelled('left', left) + spelled('right', right)
    assert answer('merge', text) == b'100000 0 %d 0\n' % count, answer('merge', text)
    build, _, listed = least(steps('merge', text) for _ in range(5))
    print('%s: one roster %.3f s, listing %.3f s: %.2f%s' % (title, build, listed, listed / build, ' (at most 2)' if 'shuffled' in title else ''))

def in_order(base, names):
    return {name: base[name] for name in names}

random.seed(7)
for title, arrange in ('shuffled', lambda names: random.sample(names, len(names))), ('ascending', sorted):
    base = flat()
    base = in_order(base, arrange(list(base)))
    measure('one directory, ' + title, base, base, base, 0)
    base = chain()
    base = in_order(base, arrange(list(base)))
    measure('a chain of 1,000, ' + title, base, base, base, 0)
    base = pairs()
    base = in_order(base, arrange(list(base)))
    measure('10,000 loops, ' + title, base, moved(base, True), moved(base, False), 20000)
PYTHON
