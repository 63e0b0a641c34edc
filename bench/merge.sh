#!/bin/bash
# What a merge costs, in a session over a store in memory: of two revisions over 100,000 nodes with 1,000 changes on each side, as a
# multiple of put_revision of the same text, printed beside `git merge-tree --write-tree` of the same trees; and 1,000 merges of
# revisions over 200 files, as a multiple of 1,000 `git merge-tree --write-tree`. A request's time is that of a session with it
# less that of one without it. The best of three counts.
cd "$(dirname "${BASH_SOURCE[0]}")/.." || exit 1
printf '' | ./mtn - put_file >/dev/null || exit 1
work=$(mktemp -d)
trap 'rm -rf "$work"' EXIT
PYTHONDONTWRITEBYTECODE=1 PYTHONPATH="bench:tests" python3 - target/mtn "$work" <<'PYTHON'
import os, random, resource, subprocess, sys, time
from revisions import add_dir, add_file, patch, revision, sha, two
from sessions import request
from tree import tree
mtn, work = os.path.abspath(sys.argv[1]), sys.argv[2]
order = lambda path: path.encode().split(b'/') if path else []

def session(requests):
    """The seconds of a session, and what it answers."""
    start = time.monotonic()
    ended = subprocess.run([mtn, '-', 'stdio'], input=b''.join(requests), stdout=subprocess.PIPE)
    assert ended.returncode == 0 and ended.stdout.count(b':l:1:0') == len(requests), (ended.returncode, ended.stdout[-300:])
    return time.monotonic() - start, ended.stdout

def least(requests):
    return min(session(requests)[0] for _ in range(3))

class History:
    """The same revisions for both programs: requests for one, a stream of commits for the other."""

    def __init__(self, name, paths):
        self.requests, self.stream, self.count = [], [], 0
        self.peer = os.path.join(work, name)
        self.paths = {'': None, **{path.rstrip('/'): None if path.endswith('/') else sha(b'abc') for path in paths if path.rstrip('/')}}
        self.requests.append(request('put_file', b'abc'))
        dirs = sorted((path for path in self.paths if self.paths[path] is None), key=order)
        files = sorted((path for path in self.paths if self.paths[path] is not None), key=order)
        text = revision(self.paths, ('', [add_dir(path) for path in dirs] + [add_file(path, self.paths[path]) for path in files]))
        self.root = sha(text)
        self.requests.append(request('put_revision', text))
        self.commit([(path, b'abc') for path in files], None)

    def commit(self, changed, parent):
        self.count += 1
        self.stream.append(b'commit refs/heads/r%d\ncommitter a <a@b> %d +0000\ndata 1\nx\n' % (self.count, self.count))
        if parent is not None:
            self.stream.append(b'from refs/heads/r%d\n' % parent)
        for path, data in changed:
            self.stream.append(b'M 100644 inline %s\ndata %d\n%s\n' % (path.encode(), len(data), data))

    def child(self, files, data):
        """A child of the root in which these files have another content; the same with its changes, for a text."""
        self.requests.append(request('put_file', data))
        tree = {**self.paths, **{path: sha(data) for path in files}}
        changes = [patch(path, sha(b'abc'), sha(data)) for path in sorted(files, key=order)]
        text = revision(tree, (self.root, changes))
        self.requests.append(request('put_revision', text))
        self.commit([(path, data) for path in files], 1)
        return sha(text), self.count, changes

    def import_all(self):
        subprocess.run(['git', 'init', '-q', '--bare', self.peer], check=True)
        subprocess.run(['git', '-C', self.peer, 'fast-import', '--quiet'], input=b''.join(self.stream), check=True)

    def git(self, *pairs, rounds=3):
        """All these merges by one process, the best of some rounds."""
        lines = b''.join(b'r%d r%d\n' % pair for pair in pairs)
        def once():
            start = time.monotonic()
            subprocess.run(['git', '-C', self.peer, 'merge-tree', '--stdin'], input=lines, stdout=subprocess.DEVNULL, check=True)
            return time.monotonic() - start
        return min(once() for _ in range(rounds))

random.seed(3)
large = History('large', tree())
chosen = random.sample([path for path in large.paths if large.paths[path] is not None], 2000)
(a, of_a, changes_a), (b, of_b, changes_b) = large.child(chosen[:1000], b'left'), large.child(chosen[1000:], b'right')
large.import_all()
merged = {**large.paths, **{path: sha(b'left') for path in chosen[:1000]}, **{path: sha(b'right') for path in chosen[1000:]}}
text = revision(merged, *two((a, changes_b), (b, changes_a)))
assert sha(text).encode() in session(large.requests + [request('merge', a, b)])[1]
base = least(large.requests)
merge = least(large.requests + [request('merge', a, b)]) - base
put = least(large.requests + [request('put_revision', text)]) - base
other = large.git((of_a, of_b))
print(f'a merge over 100,000 nodes with 1,000 changes on each side takes {merge:.2f} s: {merge / put:.2f} times put_revision of its text (at most 2.5), {merge / other:.1f} times git merge-tree', flush=True)

small = History('small', ['d%02d/' % d for d in range(10)] + ['d%02d/f%03d' % (file // 20, file) for file in range(200)])
files = [path for path in small.paths if small.paths[path] is not None]
sides = [[small.child([files[number + (100 if side else 0)]], b'%d %d' % (side, number))[:2] for number in range(32)] for side in (0, 1)]
small.import_all()
pairs = [(left, right) for left in sides[0] for right in sides[1]][:1000]
base = least(small.requests)
ours = least(small.requests + [request('merge', left[0], right[0]) for left, right in pairs]) - base
merges = [(left[1], right[1]) for left, right in pairs]
theirs = sum(small.git(merge, rounds=1) for merge in merges)
at_once = small.git(*merges) - small.git(merges[0])
print(f'1,000 merges over 200 files take {ours:.2f} s: {ours / theirs:.2f} times 1,000 git merge-tree (at most 2), {ours / at_once:.2f} times one that does them all')
PYTHON
