#!/bin/sh
# Reads and writes the text of a revision of 100,000 changes, of all seven kinds, and prints both times as multiples of the
# time in which mtn_basic_io reads the text's stanzas alone, in the same run: of the text as it is written, and then of the
# same changes in no order within a kind, a text that may be read and is never written.
set -eu
cd "$(dirname "$0")/.."
PYTHONDONTWRITEBYTECODE=1 PYTHONPATH="$PWD/bench:$PWD/tests" python3 - <<'PYTHON'
import hashlib, random
from measure import answer, least, steps
random.seed(7)

def sha(*words):
    return hashlib.sha1(repr(words).encode()).hexdigest()

def line(symbol, width, value):
    return '%s %s\n' % (symbol.rjust(width), value)

def stanza(kind, n, path):
    quoted = '"%s"' % path
    if kind == 0:
        return line('delete', 6, quoted)
    if kind == 1:
        return line('rename', 6, quoted) + line('to', 6, '"new/place/name_%05x"' % n)
    if kind == 2:
        return line('add_dir', 7, quoted)
    if kind == 3:
        return line('add_file', 8, quoted) + line('content', 8, '[%s]' % sha(n))
    if kind == 4:
        return line('patch', 5, quoted) + line('from', 5, '[%s]' % sha(n)) + line('to', 5, '[%s]' % sha(n, 1))
    if kind == 5:
        return line('clear', 5, quoted) + line('attr', 5, '"note"')
    return line('set', 5, quoted) + line('attr', 5, '"note"') + line('value', 5, '"said \\"%s\\""' % sha(n)[:9])

heads = ['format_version "1"\n', 'new_manifest [%s]\n' % sha('manifest'), 'old_revision [%s]\n' % sha('parent')]
shares = [10000, 10000, 10000, 30000, 30000, 5000, 5000]
mixed, ordered = list(heads), list(heads)
n = 0
for kind, share in enumerate(shares):
    changes = []
    for _ in range(share):
        path = 'src/part_%03d/%s/file_%05x.c' % (n % 317, 'abcdefghij'[n % 10] * (n % 7 + 1), random.randrange(1 << 20))
        changes.append((path + '_%d' % n, n))
        n += 1
    mixed += [stanza(kind, k, path) for path, k in changes]
    changes.sort(key=lambda change: change[0].encode().split(b'/'))
    ordered += [stanza(kind, k, path) for path, k in changes]
texts = {'sorted': '\n'.join(ordered).encode(), 'mixed': '\n'.join(mixed).encode()}
for name, text in texts.items():
    assert answer('revision', text) == texts['sorted']
    stanzas, read, write = least(steps('revision', text) for _ in range(5))
    most = ' (at most 2.5)' if name == 'sorted' else ''
    print('%s: its stanzas %.3f s, the revision %.3f s, written %.3f s' % (name, stanzas, read, write))
    print('%s: read to stanzas %.2f%s, write to stanzas %.2f%s' % (name, read / stanzas, most, write / stanzas, most))
PYTHON
