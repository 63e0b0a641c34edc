#!/bin/sh
# Makes a history of 2,000 revisions in a line over a tree of 200 files, 20 to a directory, each of which patches one file.
# Puts the files and the revisions, each by its own `run` over one keeper in memory, and gives the same history to git
# fast-import, in the same run. Prints the time as a multiple of git's, and how much longer twice the revisions take. The
# program is mtn_cases_store, whose lines are calls of `run`; both times are those of the process.
# Then puts a root of 100,000 nodes, two children and their merge, and a root over 1,000 contents of 1 MiB, which are not
# to be read for it: what the last command takes, of time and of memory.
set -eu
cd "$(dirname "$0")/.."
PYTHONDONTWRITEBYTECODE=1 PYTHONPATH="$PWD/bench:$PWD/tests" python3 - <<'PYTHON'
import subprocess, tempfile
from history import history
from measure import CASES, escaped, must_be_built, peak, seconds
from revisions import add_dir, add_file, patch, revision, sha, two
from tree import tree
must_be_built(CASES)
ROUNDS = 3

def section(word, payload):
    """The lines of a command: its payload, and its word."""
    return b'give %s\nrun %s\n' % (escaped(payload), word.encode())

def lines(commands):
    """The commands over a store of their own."""
    return b'store plain sha1\n' + b''.join(commands)

def ours(given):
    return min(seconds([CASES], given) for _ in range(ROUNDS))

def once(given):
    with tempfile.TemporaryDirectory() as folder:
        subprocess.run(['git', 'init', '-q', '--bare', folder], check=True)
        return seconds(['git', 'fast-import', '--quiet'], given, cwd=folder)

one, one_git = history(2000)
one, longer = (lines(section(*command) for command in commands) for commands in (one, history(4000)[0]))
done = subprocess.run([CASES], input=one, stdout=subprocess.PIPE, check=True).stdout.splitlines()
assert len(done) == 4199 and all(line.startswith(b'0 ') for line in done), done[:3]
once_ours, git, twice = ours(one), min(once(one_git) for _ in range(ROUNDS)), ours(longer)
print('2,000 revisions %.3f s, git fast-import %.3f s: %.2f times (at most 8)' % (once_ours, git, once_ours / git))
print('4,000 revisions %.3f s: %.2f times as long (at most 2.2)' % (twice, twice / once_ours))

def root(paths, contents):
    """A root with these paths, in which each file has its content; its tree, and its text."""
    order = lambda path: path.encode().split(b'/') if path else []
    dirs = sorted((path for path in paths if path not in contents), key=order)
    nodes = {**{path: None for path in dirs}, **contents}
    return nodes, revision(nodes, ('', [add_dir(path) for path in dirs] + [add_file(path, contents[path]) for path in sorted(contents, key=order)]))

def last(commands):
    """What the last of these takes beside the others."""
    return ours(lines(commands)) - ours(lines(commands[:-1]))

first, second = sha(b'abc'), sha(b'a')
files = [line for line in tree() if not line.endswith('/')]
nodes, text = root([line.rstrip('/') for line in tree()], {path: first for path in files})
left = revision({**nodes, files[0]: second}, (sha(text), [patch(files[0], first, second)]))
right = revision({**nodes, files[-1]: second}, (sha(text), [patch(files[-1], first, second)]))
merge = revision({**nodes, files[0]: second, files[-1]: second},
                 *two((sha(left), [patch(files[-1], first, second)]), (sha(right), [patch(files[0], first, second)])))
commands = [section('put_file', b'abc'), section('put_file', b'a')] + [section('put_revision', of) for of in (text, left, right, merge)]
rooted, merged = last(commands[:3]), last(commands)
print('a root of 100,000 nodes %.3f s, a merge of two children %.3f s: %.2f times, peak %.2f GiB'
      % (rooted, merged, merged / rooted, peak([CASES], lines(commands)) / 2**30))

bodies = [(b'%d ' % number).ljust(1 << 20, b'x') for number in range(1000)]
nodes, text = root(['d', ''] + ['d/f%d' % number for number in range(1000)], {'d/f%d' % number: sha(body) for number, body in enumerate(bodies)})
puts = [section('put_file', body) for body in bodies]
held = peak([CASES], lines(puts))
more = peak([CASES], lines(puts + [section('put_revision', text)])) - held
print('a root over 1,000 contents of 1 MiB %.3f s, %.2f MiB more than without it' % (last(puts + [section('put_revision', text)]), more / 2**20))
PYTHON
