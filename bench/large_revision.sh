#!/bin/bash
# What one large revision costs over a store in a file: a root of 100,000 nodes put, its manifest and its roster printed, as
# ratios to git fast-import and git ls-tree of the same tree in the same run. The best of three counts.
cd "$(dirname "${BASH_SOURCE[0]}")/.." || exit 1
./mtn --version >/dev/null || exit 1
work=$(mktemp -d)
trap 'rm -rf "$work"' EXIT

PYTHONDONTWRITEBYTECODE=1 PYTHONPATH="$PWD/bench:$PWD/tests" python3 - "$work" "$PWD/target/mtn" <<'PYTHON'
import os, subprocess, sys, time
from revisions import add_dir, add_file, manifest, revision, sha
from tree import tree
work, mtn = sys.argv[1:]
os.chdir(work)
paths = [line.rstrip('/') for line in tree() if line.endswith('/')]
held = set(paths)
files = [line for line in tree() if not line.endswith('/')]
content = sha(b'abc')
nodes = {**{path: None for path in paths}, **{path: content for path in files}}
order = lambda path: path.encode().split(b'/') if path else []
text = revision(nodes, ('', [add_dir(path) for path in sorted(paths, key=order)] + [add_file(path, content) for path in sorted(files, key=order)]))
open('text', 'wb').write(text)
open('abc', 'wb').write(b'abc')
lines = ['blob\nmark :1\ndata 3\nabc\ncommit refs/heads/main\ncommitter a <a@b> 0 +0000\ndata 0\n'] + ['M 100644 :1 %s\n' % path for path in files]
open('import', 'w').write(''.join(lines))

def once(command, source, cwd='.'):
    with open(source, 'rb') as file:
        start = time.monotonic()
        subprocess.run(command, stdin=file, stdout=subprocess.DEVNULL, check=True, cwd=cwd)
        return time.monotonic() - start

def best(command, source, prepare=lambda: None, cwd='.'):
    times = []
    for _ in range(3):
        prepare()
        times.append(once(command, source, cwd))
    return min(times)

def new_store():
    for name in ('s.mtn', 's.mtn-wal', 's.mtn-journal'):
        if os.path.exists(name):
            os.remove(name)
    once([mtn, 's.mtn', 'put_file'], 'abc')

def new_peer():
    subprocess.run(['rm', '-rf', 'peer'], check=True)
    subprocess.run(['git', 'init', '-q', 'peer'], check=True)

imported = best(['git', 'fast-import', '--quiet'], 'import', new_peer, 'peer')
put = best([mtn, 's.mtn', 'put_revision'], 'text', new_store)
listed = best(['git', 'ls-tree', '-r', '-t', 'main'], 'abc', cwd='peer')
shown = best([mtn, 's.mtn', 'get_manifest_of', sha(text)], 'abc')
marked = best([mtn, 's.mtn', 'get_roster', sha(text)], 'abc')
assert subprocess.run([mtn, 's.mtn', 'get_manifest_of', sha(text)], stdout=subprocess.PIPE).stdout == manifest(nodes)
print(f'a root of 100,000 nodes is put in {put:.2f} s: {put / imported:.1f} times git fast-import')
print(f'its manifest is printed in {shown:.2f} s: {shown / listed:.1f} times git ls-tree')
print(f'its roster is printed in {marked:.2f} s: {marked / listed:.1f} times git ls-tree, {marked / shown:.2f} times the manifest')
PYTHON
