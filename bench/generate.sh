#!/bin/bash
# What a generated history costs. `generate 2000`, with its 500 merges, over a store in memory and into a new file, each as a multiple
# of `git fast-import` of the same history in the same run. Then 4,000 revisions: the same 2,000 and the next 2,000 behind them by the
# commands one by one, in a session over a store in memory, as a multiple of a session of `generate 2000` alone; and all 4,000 by their commands, as
# a multiple of the first 2,000 by theirs. The best of five counts. Given a path, that program is measured.
source "$(dirname "${BASH_SOURCE[0]}")/program.sh" || exit 1
measured <<'PYTHON'
import os, subprocess, sys, tempfile, time
from generated import Generated
from sessions import request
mtn, work = sys.argv[1:]
COUNT, ROUNDS = 2000, 5

def best(words, data=b'', told=None, fresh=None, cwd=None):
    """The least time of a program, each time over a file that is not there yet where one is named."""
    spent = []
    for _ in range(ROUNDS):
        if fresh and os.path.exists(fresh):
            os.remove(fresh)
        start = time.monotonic()
        output = subprocess.run(words, input=data, stdout=subprocess.PIPE, check=True, cwd=cwd).stdout
        spent.append(time.monotonic() - start)
        assert told is None or output == told, output[:200]
    return min(spent)

def fast_import(stream):
    spent = []
    for _ in range(ROUNDS):
        with tempfile.TemporaryDirectory(dir=work) as peer:
            subprocess.run(['git', 'init', '-q', '--bare', peer], check=True)
            start = time.monotonic()
            subprocess.run(['git', 'fast-import', '--quiet'], input=stream, check=True, cwd=peer)
            spent.append(time.monotonic() - start)
    return min(spent)

history = Generated()
for _ in range(COUNT):
    history.more()
summary, stream, begun = history.summary(), b''.join(history.git), len(history.commands)
for _ in range(COUNT):
    history.more()
words, store = ['generate', str(COUNT)], os.path.join(work, 'generated.mtn')
memory, git = best([mtn, '-', *words], told=summary), fast_import(stream)
file = best([mtn, store, *words], told=summary, fresh=store)
print(f'generate 2000 over memory: {memory:.3f} s, git fast-import {git:.3f} s: {memory / git:.2f} times (at most 8)')
print(f'generate 2000 into a new file: {file:.3f} s, {file / git:.2f} times (at most 16)')
def session(*parts):
    return best([mtn, '-', 'stdio'], b''.join(parts))

first = request(*words)
one_by_one = [request(*asked, *([payload] if asked[0].startswith('put') else [])) for asked, payload in history.commands]
alone, behind = session(first), session(first, *one_by_one[begun:])
half, whole = session(*one_by_one[:begun]), session(*one_by_one)
print(f'4,000 revisions, the second half by their commands: {behind:.3f} s, a session of generate 2000 {alone:.3f} s: {behind / alone:.2f} times (at most 2.2)')
print(f'4,000 revisions by their commands: {whole:.3f} s, 2,000 by theirs {half:.3f} s: {whole / half:.2f} times')
PYTHON
