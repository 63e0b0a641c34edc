#!/bin/sh
# Makes the canonical changeset between two trees of 100,000 nodes, 20 to a directory, with 10 differences and with 50,000, and
# prints the times as multiples of building one of their rosters in the same run: with its entries shuffled, and ascending,
# where it only takes them.
set -eu
cd "$(dirname "$0")/.."
PYTHONDONTWRITEBYTECODE=1 PYTHONPATH="$PWD/bench:$PWD/tests" python3 - <<'PYTHON'
import random
from measure import answer, least, steps
from merged import nodes, spelled

# a fifth each of deletes, renames, added files, patches and attributes
def differing(old, count):
    files = random.sample([name for name, node in old.items() if node[2] != 'dir'], count)
    new = dict(old)
    for k, name in enumerate(files):
        above, comp, content = old[name]
        if k % 5 == 0:
            del new[name]
        elif k % 5 == 1:
            new[name] = [above, 'renamed_%d' % k, content]
        elif k % 5 == 2:
            new['3:added_%d' % k] = [above, 'added_%d' % k, content]
        elif k % 5 == 3:
            new[name] = [above, comp, '4']
        else:
            new[name] = [above, comp, content, 'key=value']
    return new

def measure(title, old, count, most=''):
    text = spelled('old', old) + spelled('new', differing(old, count))
    assert answer('between', text) == b'%d\n' % count, answer('between', text)
    build, made = least(steps('between', text) for _ in range(5))
    print('%s, %d differences: one roster %.3f s, the changeset %.3f s: %.2f%s' % (title, count, build, made, made / build, most))

old = nodes()
measure('shuffled', old, 10, ' (at most 1)')
measure('shuffled', old, 50000, ' (at most 3)')
old = {name: old[name] for name in sorted(old, key=lambda name: name.split('/'))}
measure('ascending', old, 10)
measure('ascending', old, 50000)
PYTHON
