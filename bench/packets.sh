#!/bin/bash
# What packets cost. `read` of 200 MB of packets, 50,000 files, into a store in memory: as a multiple of `base64 -d` and `sha1sum` of
# the same bytes one after the other, beside `git index-pack` of the same files, and its peak of memory as a multiple of the input.
# What hashing in four pieces takes on all processors, as a part of what it takes on one: hashing is what an input with another id
# in its last packet takes beside one whose last packet is cut, since the first is refused behind the ids and the second before
# them, with nothing kept by either. What the whole `read`, whose input is read in four pieces too, takes on all processors, as a
# part of what it takes on one. `packets` of 2,000 revisions, as a multiple of `git fast-export` of the same history: as a
# request in a session over a store in memory, and as a command of its own over a file with its opening. The best of five counts. Given a path, that program is measured.
source "$(dirname "${BASH_SOURCE[0]}")/program.sh" || exit 1
measured <<'PYTHON'
import base64, glob, os, random, subprocess, sys, time
from history import history
from packet_rows import fdata
from revisions import sha
from sessions import request
mtn, work = sys.argv[1:]
FILES, SIZE, ROUNDS = 50000, 2917, 5
path = lambda name: os.path.join(work, name)

def seconds(words, given, status=0, told=None, cwd=None):
    """The seconds of a program over a file, which ends and prints as it has to; without `told` its output is not kept."""
    with open(given, 'rb') as file:
        start = time.monotonic()
        ended = subprocess.run(words, stdin=file, stdout=subprocess.DEVNULL if told is None else subprocess.PIPE, cwd=cwd)
        spent = time.monotonic() - start
    assert ended.returncode == status and (told is None or ended.stdout == told), (words, ended.returncode, (ended.stdout or b'')[:200])
    return spent

def best(*words, **more):
    return min(seconds(*words, **more) for _ in range(ROUNDS))

def peak(words, given):
    with open(given, 'rb') as file:
        process = subprocess.Popen(words, stdin=file, stdout=subprocess.DEVNULL)
        _, status, usage = os.wait4(process.pid, 0)
    assert status == 0, status
    return usage.ru_maxrss * 1024

def write(name, data):
    with open(path(name), 'wb') as file:
        file.write(data)
    return path(name)

chance = random.Random(1)
bodies = [chance.randbytes(SIZE) for _ in range(FILES)]
texts = [fdata(body) for body in bodies]
packets = write('packets', b''.join(texts))
payloads = write('payloads', b''.join(text[text.index(b'\n') + 1:-len(b'[end]\n')] for text in texts))
plain = write('plain', b''.join(bodies))
blobs = write('blobs', b''.join(b'blob\ndata %d\n%s\n' % (SIZE, body) for body in bodies))
cut = write('cut', b''.join(texts)[:-len(b'[end]\n')])
other = write('other', b''.join(texts[:-1]) + fdata(bodies[-1], sha(b'')))
nothing = write('nothing', b'')
last, size = sha(bodies[-1]).encode(), os.path.getsize(packets)
del bodies, texts

read = [mtn, '-', 'read']
ours = best(read, packets, told=b'files %d\nrevisions 0\ncerts 0\n' % FILES)
decoding, hashing = best(['base64', '-d'], payloads), best(['sha1sum'], plain)
print(f'read of {size / 1e6:.0f} MB, 50,000 files: {ours:.2f} s, {ours / (decoding + hashing):.2f} times base64 -d and sha1sum (at most 5; {decoding:.2f} s and {hashing:.2f} s)', flush=True)
subprocess.run(['git', 'init', '-q', '--bare', path('peer')], check=True)
with open(blobs, 'rb') as file:
    subprocess.run(['git', '-C', path('peer'), 'fast-import', '--quiet'], stdin=file, check=True)
pack, = glob.glob(path('peer/objects/pack/*.pack'))
indexing = best(['git', '-C', path('peer'), 'index-pack', '-o', path('pack.idx'), pack], nothing)
print(f'the same beside git index-pack of these files: {indexing:.2f} s, {ours / indexing:.2f} times')
print(f'peak memory of that read: {peak(read, packets) / size:.2f} times the input (at most 4)', flush=True)

truncated, mismatch = b'refused BadPacket %d Truncated\n' % FILES, b'refused IdMismatch %d %s\n' % (FILES, last)
def ids(words):
    """What the ids of all payloads take."""
    return best(words, other, status=1, told=mismatch) - best(words, cut, status=1, told=truncated)
alone, together = ids(['taskset', '-c', '0', *read]), ids(read)
print(f'the ids in four pieces on {os.cpu_count()} processors: {together:.3f} s, {together / alone:.2f} times one processor (at most 0.6 on 4)')
whole = best(['taskset', '-c', '0', *read], packets)
print(f'the whole `read` in four pieces on all processors, to one processor: {ours:.2f} s, {ours / whole:.2f} times (at most 0.6 on 4; {whole:.2f} s)', flush=True)

commands, stream = history(2000)
store, revision = path('line.mtn'), sha(commands[-1][1])
session = write('session', b''.join(request(*command) for command in commands))
seconds([mtn, store, 'stdio'], session)
sent = subprocess.run([mtn, store, 'packets', revision], stdout=subprocess.PIPE, check=True).stdout
assert (sent.count(b'[rdata '), sent.count(b'[fdata ')) == (2000, 2199), sent[:200]
sending, opening = best([mtn, store, 'packets', revision], nothing), best([mtn, store, 'get_revision', revision], nothing)
subprocess.run(['git', 'init', '-q', '--bare', path('line')], check=True)
subprocess.run(['git', '-C', path('line'), 'fast-import', '--quiet'], input=stream, check=True)
exporting = best(['git', '-C', path('line'), 'fast-export', '--all'], nothing)
asked = lambda times: best([mtn, '-', 'stdio'], write('asked', request('read', sent) + request('packets', revision) * times))
request_of = (asked(41) - asked(1)) / 40
print(f'packets of 2,000 revisions, a request in a session over memory: {request_of:.3f} s, {request_of / exporting:.2f} times git fast-export (at most 3)')
print(f'the same from a file, a command of its own: {sending:.3f} s, {sending / exporting:.2f} times, of which opening the store takes {opening:.3f} s, {opening / exporting:.2f} times')
back = write('sent', sent)
reading = best(read, back, told=b'files 2199\nrevisions 2000\ncerts 0\n')
print(f'their read into a store in memory: {reading:.2f} s, {reading / best([mtn, "-", "stdio"], session):.2f} times a session of the commands that keep the same')
PYTHON
