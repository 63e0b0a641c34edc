#!/bin/bash
# What `check` of a store file costs: 2,000 revisions in a line over 200 files, as a multiple of `fossil test-integrity` and of `git fsck
# --full` over the same history in the same run; how much longer twice the revisions take; what it takes on all processors, as a part of
# what it takes on one, beside what loops with nothing shared take so, which no program goes below; its peak of memory over both. All is
# done in turn, and the best of twelve turns counts, since what else a machine does slows it for seconds; where one processor is twice as
# fast in one second as in the next, the best on one and the best on four are of different seconds, so the middle of the turns' own ratios
# stands beside theirs. Given a path, that program is measured. Without fossil (Debian's package) its line is left out.
source "$(dirname "${BASH_SOURCE[0]}")/program.sh" || exit 1
measured <<'PYTHON'
import os, shutil, subprocess, sys, time
from history import history
from sessions import request
mtn, work = sys.argv[1:]
ROUNDS = 12
path = lambda name: os.path.join(work, name)

def once(words, told=None):
    """The seconds of a program that says nothing else."""
    start = time.monotonic()
    output = subprocess.run(words, stdin=subprocess.DEVNULL, stdout=subprocess.PIPE, stderr=subprocess.DEVNULL, check=True).stdout
    spent = time.monotonic() - start
    assert told is None or output == told, output[:200]
    return spent

def loops(count):
    """The seconds of so many loops at once, each in a process of its own."""
    start = time.monotonic()
    running = [subprocess.Popen([sys.executable, '-c', 'for _ in range(10_000_000): pass']) for _ in range(count)]
    assert all(process.wait() == 0 for process in running)
    return time.monotonic() - start

def peak(words):
    process = subprocess.Popen(words, stdin=subprocess.DEVNULL, stdout=subprocess.DEVNULL)
    _, status, usage = os.wait4(process.pid, 0)
    assert status == 0, status
    return usage.ru_maxrss / 1024

def made(count):
    """A store file of so many revisions, and the stream for git."""
    commands, stream = history(count)
    store = path('%d.mtn' % count)
    session = b''.join(request(*command) for command in commands)
    subprocess.run([mtn, store, 'stdio'], input=session, stdout=subprocess.DEVNULL, check=True)
    return store, stream

(store, stream), (longer, _) = made(2000), made(4000)
subprocess.run(['git', 'init', '-q', '--bare', path('peer')], check=True)
subprocess.run(['git', '-C', path('peer'), 'fast-import', '--quiet'], input=stream, check=True)
count = os.cpu_count()
steps = {
    'ours': lambda: once([mtn, store, 'check'], b'ok 2000\n'),
    'twice': lambda: once([mtn, longer, 'check'], b'ok 4000\n'),
    'alone': lambda: once(['taskset', '-c', '0', mtn, store, 'check'], b'ok 2000\n'),
    'git': lambda: once(['git', '-C', path('peer'), 'fsck', '--full']),
    'loop': lambda: loops(1),
    'loops': lambda: loops(count),
}
if shutil.which('fossil'):
    with open(path('stream'), 'wb') as file:
        file.write(stream)
    with open(path('stream'), 'rb') as file:
        subprocess.run(['fossil', 'import', '--git', path('peer.fossil')], stdin=file, stdout=subprocess.DEVNULL, check=True, env=dict(os.environ, USER='a', HOME=work))
    steps['fossil'] = lambda: once(['fossil', 'test-integrity', '-R', path('peer.fossil')])
turns = [{name: step() for name, step in steps.items()} for _ in range(ROUNDS)]
best = {name: min(turn[name] for turn in turns) for name in steps}
ours, twice, alone = best['ours'], best['twice'], best['alone']

def middle(of, to):
    """The middle of the turns' own ratios."""
    return sorted(turn[of] / turn[to] for turn in turns)[ROUNDS // 2]

for name, peer, wanted in ('fossil', 'fossil test-integrity', 5), ('git', 'git fsck --full', 15):
    if name in best:
        print(f'check of 2,000 revisions: {ours:.3f} s, {peer} {best[name]:.3f} s: {ours / best[name]:.2f} times (at most {wanted})')
print(f'4,000 revisions: {twice:.3f} s, {twice / ours:.2f} times as long (at most 2.2)')
print(f'on {count} processors to one: {ours / alone:.2f} ({alone:.3f} s), {middle("ours", "alone"):.2f} in the middle turn (at most 0.5 on 4)')
print(f'{count} loops with nothing shared, at once to one after the other: {best["loops"] / (count * best["loop"]):.2f}, {middle("loops", "loop") / count:.2f} in the middle turn')
print(f'peak memory over 2,000 revisions {peak([mtn, store, "check"]):.0f} MiB, over 4,000 {peak([mtn, longer, "check"]):.0f} MiB')
PYTHON
