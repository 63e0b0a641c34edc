#!/bin/sh
# Reads and writes again a text of stanzas of 64 MiB, and prints how many times as long as sha1sum of the same text that
# takes, both by their processes.
set -eu
cd "$(dirname "$0")/.."
PYTHONDONTWRITEBYTECODE=1 PYTHONPATH="$PWD/bench:$PWD/tests" python3 - <<'PYTHON'
import hashlib
from measure import PROGRAM, answer, least, seconds, steps

def stanza(n):
    a = hashlib.sha1(b'%d' % n).hexdigest()
    b = hashlib.sha1(a.encode()).hexdigest()
    if n % 4 == 0:
        return 'add_file "src/lib/part_%d/file_%d.c"\n content [%s]\n' % (n % 97, n, a)
    if n % 4 == 1:
        return 'patch "doc/chapter_%d/page.txt"\n from [%s]\n   to [%s]\n' % (n, a, b)
    if n % 4 == 2:
        return 'rename "old/name_%d"\n    to "new/place/name_%d"\n' % (n, n)
    return '  set "tools/run_%d"\n attr "note"\nvalue "said \\"%s\\" and \\\\ more of %d"\n' % (n, a[:9], n)

parts, done = [], 0
while done < 64 << 20:
    parts.append(stanza(len(parts)))
    done += len(parts[-1]) + 1
text = '\n'.join(parts).encode()
assert answer('stanzas', text) == text
sha = min(seconds(['sha1sum'], text) for _ in range(3))
both = min(seconds([PROGRAM, 'stanzas'], text) for _ in range(3))
read, write = least(steps('stanzas', text) for _ in range(3))
print('sha1sum %.3f s; reading %.3f s, writing %.3f s; the program %.3f s' % (sha, read, write, both))
print('reading and writing to sha1sum: %.1f (at most 10)' % (both / sha))
PYTHON
