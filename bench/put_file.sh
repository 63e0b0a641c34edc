#!/bin/bash
# What putting a file costs: put_file of 64 MiB over a store in memory against sha1sum of the same file in the same run,
# and the peak of memory as a multiple of the input. Both sides read the file from the page cache; the best of five counts.
cd "$(dirname "${BASH_SOURCE[0]}")/.." || exit 1
work=$(mktemp -d)
trap 'rm -rf "$work"' EXIT
head -c 67108864 /dev/urandom >"$work/file"
printf '' | ./mtn - put_file >/dev/null || exit 1

python3 - "$work/file" target/mtn <<'PYTHON'
import os, resource, subprocess, sys, time
path, mtn = sys.argv[1:]

def best(command):
    times = []
    for _ in range(5):
        with open(path, 'rb') as file:
            start = time.monotonic()
            output = subprocess.run(command, stdin=file, stdout=subprocess.PIPE, check=True).stdout
            times.append(time.monotonic() - start)
    return min(times), output.split()[0]

def peak(command):
    with open(path, 'rb') as file:
        process = subprocess.Popen(command, stdin=file, stdout=subprocess.DEVNULL)
        _, status, usage = os.wait4(process.pid, 0)
    return usage.ru_maxrss * 1024

hashed, id_of = best(['sha1sum'])
put, answer = best([mtn, '-', 'put_file'])
assert id_of == answer, (id_of, answer)
print(f'put_file, 64 MiB: {put / hashed:.2f} times sha1sum (at most 2)')
print(f'peak memory: {peak([mtn, "-", "put_file"]) / os.path.getsize(path):.2f} times the input (at most 6)')
PYTHON
