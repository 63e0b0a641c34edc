#!/bin/sh
# Builds a roster of 100,000 nodes, 20 to a directory, walks it and writes its manifest, and prints the times as multiples of
# sort over the same paths, in the same order, and of sha1sum over the manifest, in the same run: with the entries shuffled,
# the worst that a caller can hand in, and ascending, as those of an earlier tree are. Then it prints the peak of memory of
# one roster with its manifest, and of three with one, where nearly all of 100,015 paths have 4,095 bytes in components of 255.
set -eu
cd "$(dirname "$0")/.."
PYTHONDONTWRITEBYTECODE=1 PYTHONPATH="$PWD/bench:$PWD/tests" python3 - <<'PYTHON'
import random
from measure import PROGRAM, answer, peak, seconds, steps
from tree import tree
ROUNDS = 7

def measure(name, lines):
    text = '\n'.join(lines).encode()
    sort = min(seconds(['sort'], text) for _ in range(ROUNDS))
    build, walk, manifest = min((steps('roster', text) for _ in range(ROUNDS)), key=sum)
    sha = min(seconds(['sha1sum'], answer('roster', text)) for _ in range(ROUNDS))
    both = build + walk + manifest
    print('%s: build %.3f s, walk %.3f s, manifest %.3f s; sort %.3f s, sha1sum of the manifest %.3f s' % (name, build, walk, manifest, sort, sha))
    print('%s: %.1f times sort for all three (at most 6): build %.1f, walk %.1f, manifest %.1f; %.1f times sha1sum' % (name, both / sort, build / sort, walk / sort, manifest / sort, both / sha))

lines = tree()
random.shuffle(lines)
measure('shuffled', lines)
measure('ascending', sorted(lines, key=lambda line: line.rstrip('/').split('/')))
one, three = (peak([PROGRAM, 'long'], b'%d' % more) / 2**30 for more in (0, 2))
print('long paths: peak %.2f GiB for a roster with its manifest, %.2f GiB for three with one (below 4 GB)' % (one, three))
PYTHON
