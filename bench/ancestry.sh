#!/bin/sh
# Asks a graph of a million revisions, a chain of forks and merges, for what git can be asked too: whether the root is an
# ancestor of the newest, how many ancestors the newest has, and what the two revisions of the last fork have not in common.
# Git lists no common ancestors, so how long those of the newest four take stands beside our own ancestors. Git's times
# include its start and its reading of the graph, so that of our program with the making of its graph is printed too.
set -eu
cd "$(dirname "$0")/.."
PYTHONDONTWRITEBYTECODE=1 PYTHONPATH="$PWD/bench:$PWD/tests" python3 - <<'PYTHON'
import os, subprocess, tempfile
from measure import PROGRAM, answer, least, seconds, steps
DIAMONDS = 333333

def history():
    """The graph for git fast-import."""
    def commit(mark, parents):
        lines = ['commit refs/heads/main', 'mark :%d' % mark, 'committer a <a> %d +0000' % mark, 'data 1', 'x']
        return '\n'.join(lines + ['%s :%d' % (word, parent) for word, parent in zip(('from', 'merge'), parents)]) + '\n\n'
    yield 'feature done\n' + commit(1, [])
    for last in range(1, 3 * DIAMONDS, 3):
        yield commit(last + 1, [last]) + commit(last + 2, [last]) + commit(last + 3, [last + 1, last + 2])
    yield 'done\n'

with tempfile.TemporaryDirectory() as work:
    def git(*words):
        return min(seconds(['git', *words], cwd=work) for _ in range(3))
    subprocess.run(['git', 'init', '-q', '--bare', work], check=True)
    subprocess.run(['git', 'fast-import', '--quiet'], input=''.join(history()).encode(), check=True, cwd=work)
    subprocess.run(['git', 'commit-graph', 'write', '--reachable'], stderr=subprocess.DEVNULL, check=True, cwd=work)
    root = subprocess.run(['git', 'rev-list', '--max-parents=0', 'main'], stdout=subprocess.PIPE, check=True, cwd=work).stdout.strip()
    old = git('merge-base', '--is-ancestor', root, 'main')
    count = git('rev-list', '--count', 'main')
    apart = git('rev-list', '--count', '--left-right', 'main^1...main^2')

given = b'%d' % DIAMONDS
assert answer('ancestry', given) == b'true %d 1 1 %d\n' % (3 * DIAMONDS, 3 * DIAMONDS - 2), answer('ancestry', given)
whole = min(seconds([PROGRAM, 'ancestry'], given) for _ in range(3))
_, is_old, ancestors, uncommon, common = least(steps('ancestry', given) for _ in range(3))
for name, ours, gits in (('is_ancestor', is_old, old), ('ancestors', ancestors, count), ('uncommon', uncommon, apart)):
    print('%s %.3f s, git %.3f s: %.3f' % (name, ours, gits, ours / gits))
print('common of four %.3f s, ancestors %.3f s: %.2f' % (common, ancestors, common / ancestors))
print('with the start and the making of the graph %.3f s, git all three %.3f s: %.2f (at most 1)' % (whole, old + count + apart, whole / (old + count + apart)))
PYTHON
