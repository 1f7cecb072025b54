"""What the tools share as programs: their words, their inputs, and how they find vq."""
import argparse
import gc
import os
import shutil
import sys

TOP = os.path.dirname(os.path.dirname(os.path.dirname(os.path.realpath(__file__))))
VERSION = '1.1'
# The statuses are those of vq: words, a refused script, reading, writing.
DONE, WORDS, REFUSED, UNREADABLE, UNWRITABLE = range(5)
# Where vq lies in a clone: as ./build leaves it, and as the gate does.
IN_A_CLONE = ('vq', os.path.join('crates', 'vq_main', 'out', 'vq_main'))


class Failure(Exception):
    """What a tool can't go on from: a status, and a line for the standard error output, with the usage for misuse."""

    usage = ''

    def __init__(self, status, text):
        super().__init__(text + (Failure.usage if status == WORDS else ''))
        self.status = status


class Words(argparse.ArgumentParser):
    """The words of a command line, with --help and --version. Other words get a usage line and the status 1."""

    def __init__(self, text):
        """Of a text the first part says what the tool does, the second is its usage, and the rest says more."""
        short, _, rest = text.partition('\n\n')
        usage, _, rest = rest.partition('\n\n')
        name = own_name()
        usage = '\n       '.join(f'{name} {line.split(" ", 1)[1]}' for line in usage.split('\n'))
        super().__init__(prog=name, usage=usage, description=short, epilog=rest,
                         formatter_class=argparse.RawDescriptionHelpFormatter, allow_abbrev=False)
        Failure.usage = f'\nusage: {self.usage}'
        self.add_argument('--version', action='version', version=f'{name} {VERSION}')

    def error(self, message):
        raise Failure(WORDS, message)


def own_name():
    return os.path.basename(sys.argv[0])


def complain(text):
    """Says something on the standard error output, if there is one."""
    try:
        if sys.stderr:
            print(f'{own_name()}: {text}', file=sys.stderr, flush=True)
    except OSError:
        pass


def find_program(named):
    """The program vq: the one that was named, or the one beside this tool, in this clone or on the PATH; or None."""
    if named:
        found = shutil.which(named) or (shutil.which(os.path.abspath(named)))
        if not found:
            raise Failure(WORDS, f'{named}: no such program')
        return os.path.abspath(found)
    beside = os.path.join(os.path.dirname(os.path.abspath(sys.argv[0])), 'vq')
    for path in [beside, *(os.path.join(TOP, path) for path in IN_A_CLONE)]:
        if os.path.isfile(path) and os.access(path, os.X_OK):
            return path
    return shutil.which('vq')


def needed_program(named):
    found = find_program(named)
    if not found:
        raise Failure(WORDS, 'no program vq beside this tool or on the PATH: ./build makes it, or name it with --vq')
    return found


def program_or_reading(named):
    """The program, or None where there is none: the second reading of the language stands in then, as is said."""
    found = find_program(named)
    if not found:
        complain('no vq beside this tool or on the PATH, so this is told by a second reading of the language, which '
                 'isn\'t proved')
    return found


def read_input(path):
    """The bytes of a file, or of the standard input for `-`."""
    try:
        if path == '-':
            return read_standard_input()
        with open(path, 'rb') as file:
            return file.read()
    except OSError as fault:
        raise Failure(UNREADABLE, f'{path}: {fault.strerror}')


def read_standard_input():
    if sys.stdin is None:
        raise Failure(UNREADABLE, 'the standard input is closed')
    if sys.stdin.isatty():
        complain('reading from the terminal, up to Ctrl-D; --help says more')
    return sys.stdin.buffer.read()


def called(path):
    return '<stdin>' if path == '-' else path


def write(text):
    """Writes to the standard output: a text, or bytes as they are."""
    if sys.stdout is None:
        raise Failure(UNWRITABLE, 'the standard output is closed')
    if isinstance(text, str):
        sys.stdout.write(text)
    else:
        sys.stdout.buffer.write(text)


def ended_by_words(main):
    """The status of a tool, and of one that only helps."""
    try:
        return main()
    except SystemExit as ended:
        return ended.code


def run(main):
    """Runs a tool, and ends the process: a failure is one line, and never a traceback."""
    # A run is short, and the search for objects that refer to each other takes a fifth of the time of a large script.
    gc.disable()
    for stream in filter(None, (sys.stdout, sys.stderr)):
        stream.reconfigure(errors='backslashreplace')
    try:
        status = ended_by_words(main)
        if sys.stdout:
            sys.stdout.flush()
    except Failure as failure:
        complain(str(failure))
        status = failure.status
    except KeyboardInterrupt:
        status = 130
    except OSError as fault:
        if not isinstance(fault, BrokenPipeError):
            complain(fault.strerror)
        # What is left to be written isn't tried again.
        if sys.stdout:
            os.dup2(os.open(os.devnull, os.O_WRONLY), sys.stdout.fileno())
        status = UNWRITABLE
    sys.exit(status)
