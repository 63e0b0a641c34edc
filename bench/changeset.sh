#!/bin/sh
# Applies 1 and 10,000 changes to a tree of 100,000 nodes, 20 to a directory, shuffled, and prints the times as multiples of
# building that tree's roster, in the same run.
set -eu
cd "$(dirname "$0")/.."
PYTHONDONTWRITEBYTECODE=1 PYTHONPATH="$PWD/bench:$PWD/tests" python3 - <<'PYTHON'
import random
from measure import least, steps
from tree import tree

OLD, NEW = '02' * 20, '04' * 20

def patch(path):
    return 'patch "%s"\n from [%s]\n   to [%s]\n' % (path, OLD, NEW)

# a fifth each of deletes, renames, added files (some with their directory), patches and attributes
def changes(lines):
    files = [line for line in lines if not line.endswith('/')]
    random.shuffle(files)
    kinds = [files[k * 2000:(k + 1) * 2000] for k in range(5)]
    above = lambda path: path.rpartition('/')[0] + '/' if '/' in path else ''
    yield from ('delete "%s"\n' % path for path in sorted(kinds[0]))
    yield from ('rename "%s"\n    to "%srenamed_%d"\n' % (path, above(path), k) for k, path in enumerate(sorted(kinds[1])))
    yield from ('add_dir "%sadded_%d"\n' % (above(path), k) for k, path in enumerate(kinds[2][:1000]))
    yield from ('add_file "%sadded_%d/file"\n content [%s]\n' % (above(path), k, OLD) for k, path in enumerate(kinds[2][:1000]))
    yield from (patch(path) for path in kinds[3])
    yield from ('  set "%s"\n attr "key"\nvalue "value"\n' % path for path in kinds[4])

def measure(count, lines, text):
    build, apply = least(steps('changeset', ('\n'.join(lines) + '\n=' + text).encode()) for _ in range(5))
    print('%s: build %.3f s, apply %.3f s: %.2f times' % (count, build, apply, apply / build))

lines = tree()
many = list(changes(lines))
assert len(many) == 10000
random.shuffle(lines)
measure('1 change (at most 1.5)', lines, patch(next(line for line in lines if not line.endswith('/'))))
measure('10,000 changes (at most 3)', lines, '\n'.join(many))
PYTHON
