#!/bin/sh
# Decides the merge of two trees of 100,000 nodes, 20 to a directory, that differ in 1,000 contents, and prints the time as a
# multiple of building one of their rosters in the same run: with its entries shuffled, and ascending, where it only takes them.
set -eu
cd "$(dirname "$0")/.."
PYTHONDONTWRITEBYTECODE=1 PYTHONPATH="$PWD/bench:$PWD/tests" python3 - <<'PYTHON'
from measure import answer, least, steps
from merged import changed, nodes, spelled

def measure(name, base, most=''):
    text = spelled('base', base) + spelled('left', changed(base, 500)) + spelled('right', changed(base, 500))
    assert answer('merge', text).startswith(b'100000 0 '), answer('merge', text)
    build, decide, _ = least(steps('merge', text) for _ in range(5))
    print('%s: one roster %.3f s, deciding %.3f s: %.2f%s' % (name, build, decide, decide / build, most))

base = nodes()
measure('shuffled', base, ' (at most 1.5)')
measure('ascending', {name: base[name] for name in sorted(base, key=lambda name: name.split('/'))})
PYTHON
