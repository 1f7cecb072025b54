"""Tests of how vq ends where a limit on the size of files stops its standard output (`ulimit -f`)."""
import os
import resource
import subprocess

SCRIPT = b'buffer X 4096\n'
HEAD = b'#' * 100

# How vq gets the file: as its first lines, behind those of a program before it, and appending (`>>`).
AT_START, BEHIND, APPENDING = 'at the start of a file', 'behind another program\'s lines', 'at the end of a file'


def started(tests, most, output):
    """vq, whose files may have this many bytes, with this standard output."""
    def limit():
        resource.setrlimit(resource.RLIMIT_FSIZE, (most, resource.getrlimit(resource.RLIMIT_FSIZE)[1]))
    return subprocess.Popen([tests.program], stdin=subprocess.PIPE, stdout=output, preexec_fn=limit)


def opened(tests, place, earlier):
    """A file with these bytes, open where vq is to write."""
    path = tests.write('output', b'' if place == BEHIND else earlier)
    output = os.open(path, os.O_WRONLY | (os.O_APPEND if place == APPENDING else 0))
    if place == BEHIND:
        os.write(output, earlier)
    return path, output


def limited(tests, most, place, earlier, script):
    """The status of vq over a file that had these bytes, and what it then has."""
    path, output = opened(tests, place, earlier)
    running = started(tests, most, output)
    os.close(output)
    running.communicate(script, timeout=60)
    with open(path, 'rb') as file:
        return running.returncode, file.read()


def in_files(tests, text):
    """A text for a file is written up to the limit, and the status is 4 where that isn't the whole text."""
    size, long = len(text), text + HEAD
    for place, earlier, most, status, wanted in (
            (AT_START, b'', size // 2, 4, text[:size // 2]),
            (AT_START, b'', size - 1, 4, text[:-1]),
            (AT_START, b'', size, 0, text),
            (AT_START, b'', size + 1, 0, text),
            (AT_START, b'', 0, 4, b''),
            (AT_START, long, size, 0, long),
            (BEHIND, HEAD, size + 100, 0, HEAD + text),
            (BEHIND, HEAD, size + 99, 4, HEAD + text[:-1]),
            (BEHIND, HEAD, 100, 4, HEAD),
            (BEHIND, HEAD, 50, 4, HEAD),
            (APPENDING, HEAD, size + 100, 0, HEAD + text),
            (APPENDING, HEAD, size + 99, 4, HEAD + text[:-1]),
            (APPENDING, HEAD, 100, 4, HEAD),
            (APPENDING, HEAD, 50, 4, HEAD)):
        done = limited(tests, most, place, earlier, SCRIPT)
        tests.check(f'vq {place}, with a limit of {most} bytes', done == (status, wanted), done)
    done = limited(tests, 3, AT_START, b'', b'x\n')
    tests.check('vq with a limit within a refusal', done == (4, b'err'), done)


def while_it_reads(tests):
    """What counts is where the file ends when vq writes, and not when it was started."""
    path, output = opened(tests, AT_START, b'')
    running = started(tests, len(HEAD), output)
    os.write(output, HEAD)
    os.close(output)
    running.communicate(SCRIPT, timeout=60)
    with open(path, 'rb') as file:
        done = running.returncode, file.read()
    tests.check('vq with a limit that is reached while it reads', done == (4, HEAD), done)


def test_output(tests):
    text = tests.vq(SCRIPT)
    in_files(tests, text)
    while_it_reads(tests)
    running = started(tests, 0, subprocess.PIPE)
    printed = running.communicate(SCRIPT, timeout=60)[0]
    tests.check('vq to a pipe, with a limit', (running.returncode, printed) == (0, text), printed)
    running = started(tests, 0, subprocess.DEVNULL)
    running.communicate(SCRIPT, timeout=60)
    tests.check('vq to /dev/null, with a limit', running.returncode == 0, running.returncode)
