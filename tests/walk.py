"""Runs the walks in the documents: each line that begins with `$ ` in a block is typed, what stands under it has to be printed.

The lines of a document are run in one empty folder with the built program in it, which is on the PATH as `mtn` too. Rust in a
document has to stand in the source of `mtn_cases_store`. Prints 'N passed, M failed', what fails to standard error.
"""
import os, re, shutil, subprocess, sys, tempfile

TOP = os.path.dirname(os.path.dirname(os.path.abspath(__file__)))
passed = failed = 0


def verdict(good, told):
    global passed, failed
    if good:
        passed += 1
    else:
        failed += 1
        print('FAILED:', told, file=sys.stderr)


def blocks(path):
    """The blocks between fences: what stands behind the first fence, and the lines."""
    with open(path) as text:
        return re.findall(r'^```(\w*)\n(.*?)^```$', text.read(), re.S | re.M)


def steps(block):
    """The lines that are typed, each with what is printed under it."""
    for part in re.split(r'^\$ ', block, flags=re.M)[1:]:
        line, _, printed = part.partition('\n')
        yield line, printed


def walk(document):
    with tempfile.TemporaryDirectory() as folder:
        shutil.copy(os.path.join(TOP, 'target', 'mtn'), folder)
        told = dict(os.environ, PATH=folder + ':' + os.environ['PATH'])
        for kind, block in blocks(os.path.join(TOP, document)):
            if kind == 'rust':
                with open(os.path.join(TOP, 'crates', 'mtn_cases_store', 'src', 'running.rt')) as source:
                    verdict(block in source.read(), f'{document}: its Rust stands in mtn_cases_store')
            for line, printed in steps(block):
                ran = subprocess.run(['bash', '-c', line], cwd=folder, env=told, stdout=subprocess.PIPE, stderr=subprocess.STDOUT)
                verdict(ran.stdout.decode(errors='replace') == printed, f'{document}: {line}\n{ran.stdout.decode(errors="replace")}')


for document in ('README.md', 'docs/USING.md', 'docs/FORMATS.md'):
    before = passed + failed
    walk(document)
    verdict(passed + failed > before, f'{document} has a walk')
print(passed, 'passed,', failed, 'failed')
sys.exit(failed > 0)
