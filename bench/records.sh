#!/bin/sh
# Makes the record of a tree of 100,000 nodes, 20 to a directory, and a chain of sixteen on it in which each link gives ten
# slots a new mark. Prints the time of rebuilding the chain as a multiple of rebuilding the whole record, and that of
# writing, reading and rebuilding the whole record as a multiple of sort over the same paths, shuffled, in the same run.
set -eu
cd "$(dirname "$0")/.."
PYTHONDONTWRITEBYTECODE=1 PYTHONPATH="$PWD/bench:$PWD/tests" python3 - <<'PYTHON'
import random
from measure import answer, least, seconds, steps
from tree import tree
ROUNDS = 5

lines = tree()
numbers = {line.rstrip('/'): number for number, line in enumerate(lines, 1)}
def node(line):
    path = line.rstrip('/')
    return '%d %s' % (0 if path == '' else numbers[path.rpartition('/')[0]], line)
nodes = '\n'.join(map(node, lines)).encode()
random.shuffle(lines)
paths = '\n'.join(lines).encode()
assert answer('records', nodes) == b'100000 150\n', answer('records', nodes)
sort = min(seconds(['sort'], paths) for _ in range(ROUNDS))
write, read, whole, chain = least(steps('records', nodes) for _ in range(ROUNDS))
print('rebuild a chain of sixteen %.3f s, its whole record %.3f s: %.2f (at most 2)' % (chain, whole, chain / whole))
print('write %.3f s, read %.3f s, rebuild %.3f s; sort %.3f s: %.1f times sort for all three (at most 10)'
      % (write, read, whole, sort, (write + read + whole) / sort))
PYTHON
