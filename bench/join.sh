#!/bin/sh
# Joins two rosters of the same 100,000 paths, 20 to a directory, and prints the time, with the test of births, as a
# multiple of building one of them in the same run.
set -eu
cd "$(dirname "$0")/.."
PYTHONDONTWRITEBYTECODE=1 PYTHONPATH="$PWD/bench:$PWD/tests" python3 - <<'PYTHON'
import random
from measure import least, steps
from tree import tree
lines = tree()
random.shuffle(lines)
build, _, join = least(steps('join', '\n'.join(lines).encode()) for _ in range(5))
print('one roster %.3f s, joining two %.3f s: %.2f (at most 4)' % (build, join, join / build))
PYTHON
