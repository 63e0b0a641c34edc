"""What the scripts share: the program mtn_bench with its own clock, and the clock of other programs."""
import os, subprocess, sys, tempfile, time

TOP = os.path.dirname(os.path.dirname(os.path.abspath(__file__)))
PROGRAM = os.environ.get('MTN_BENCH', TOP + '/crates/mtn_bench/out/mtn_bench')
# Its lines are calls of `run` over objects in memory.
CASES = os.environ.get('MTN_CASES', TOP + '/crates/mtn_cases_store/out/mtn_cases_store')


def must_be_built(program):
    """Ends the script where a program is not there, or is older than a source and not named by a variable."""
    if not os.path.exists(program) or (program.startswith(TOP) and newest_source() > os.path.getmtime(program)):
        sys.exit('build %s first: `rt run` in its crate, or give its path in MTN_BENCH or MTN_CASES' % program)


def newest_source():
    """When a source of a crate was changed last."""
    times = [0]
    for at, folders, names in os.walk(TOP + '/crates'):
        folders[:] = [folder for folder in folders if folder != 'out']
        times += [os.path.getmtime(os.path.join(at, name)) for name in names if name.endswith(('.rt', '.antt'))]
    return max(times)


def escaped(text):
    """A text as the lines of mtn_cases_store spell it."""
    return text.replace(b'\\', b'\\\\').replace(b'\n', b'\\n').replace(b' ', b'\\s')


def answer(word, given):
    """What mtn_bench writes for a word over some bytes."""
    must_be_built(PROGRAM)
    return subprocess.run([PROGRAM, word], input=given, stdout=subprocess.PIPE, check=True).stdout


def steps(word, given):
    """The seconds of the word's steps, by the program's own clock, which begins with what is read in memory."""
    must_be_built(PROGRAM)
    told = subprocess.run([PROGRAM, word, 'times'], input=given, stdout=subprocess.PIPE, check=True).stdout
    return [int(step) / 1e6 for step in told.split()]


def least(rounds):
    """The least time of each step over some rounds."""
    return [min(step) for step in zip(*rounds)]


def given_as_file(given):
    """A file of these bytes, read from its start."""
    file = tempfile.TemporaryFile()
    file.write(given)
    file.seek(0)
    return file


def seconds(words, given=b'', cwd=None):
    """The seconds of a program from its start to its end over these bytes; its output is not kept."""
    with given_as_file(given) as file:
        start = time.monotonic()
        subprocess.run(words, stdin=file, stdout=subprocess.DEVNULL, check=True, cwd=cwd, env=dict(os.environ, LC_ALL='C'))
        return time.monotonic() - start


def peak(words, given=b''):
    """The most memory of a program over these bytes, in bytes."""
    with given_as_file(given) as file:
        child = subprocess.Popen(words, stdin=file, stdout=subprocess.DEVNULL)
        _, status, used = os.wait4(child.pid, 0)
    assert status == 0, status
    return used.ru_maxrss * 1024
