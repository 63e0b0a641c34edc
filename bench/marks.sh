#!/bin/sh
# Builds a roster of 100,000 nodes, 20 to a directory, marks it as a root, and marks a child in which one content differs.
# Prints marking as a multiple of building, in the same run.
set -eu
cd "$(dirname "$0")/.."
PYTHONDONTWRITEBYTECODE=1 PYTHONPATH="$PWD/bench:$PWD/tests" python3 - <<'PYTHON'
import random
from measure import answer, least, steps
from tree import tree
lines = tree()[1:]
last = next(line for line in lines if not line.endswith('/'))
rest = [line for line in lines if line != last] + ['/']
random.shuffle(rest)
text = '\n'.join(rest + [last]).encode()
assert answer('marks', text) == b'100000 1\n', answer('marks', text)
first, root, second, child = least(steps('marks', text) for _ in range(5))
print('build %.3f s, mark as a root %.3f s: %.2f' % (first, root, root / first))
print('build %.3f s, mark a child %.3f s: %.2f (at most 3)' % (second, child, child / second))
PYTHON
