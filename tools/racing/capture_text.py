"""A capture as text: its lines, the batches that they stand in, and the verdict of a checker."""
import collections
import os
import re
import shutil
import subprocess
import sys

from captures import verdict as slow_verdict
from command import TOP, WORDS, Failure

# A batch: its first and last line, its queue; a host's line stands in none.
Batch = collections.namedtuple('Batch', 'first last queue')
# What decides: two lines that race, or the second of which doesn't see what the first one wrote.
Pair = collections.namedtuple('Pair', 'kind first second')
DECIDES = re.compile(rb'(race|unseen): lines (\d+) and (\d+)\n')


def words_of(line):
    """The words of a line, without its comment."""
    return line.decode('latin-1').split('#')[0].split()


def comment_of(line):
    """What a recorder wrote behind a line, or nothing."""
    _, _, said = line.decode('latin-1').partition('#')
    return said.strip()


def batches_of(lines):
    """All batches, in their order; the last one may be open."""
    found, first, queue = [], None, None
    for number, line in enumerate(lines, 1):
        words = words_of(line)
        if words[:1] == ['submit'] and first is None:
            first, queue = number, words[1]
        elif words == ['end'] and first is not None:
            found.append(Batch(first, number, queue))
            first = None
    if first is not None:
        found.append(Batch(first, len(lines), queue))
    return found


def batch_at(batches, line):
    """The batch that a line stands in, or None."""
    return next((batch for batch in batches if batch.first <= line <= batch.last), None)


def find_checker(named):
    """The program vqc: the one that was named, or that beside this tool, of this clone or on the PATH; or None."""
    if named:
        found = shutil.which(named) or shutil.which(os.path.abspath(named))
        if not found:
            raise Failure(WORDS, f'{named}: no such program')
        return os.path.abspath(found)
    beside = os.path.join(os.path.dirname(os.path.abspath(sys.argv[0])), 'vqc')
    for path in (beside, os.path.join(TOP, 'vqc'),
                 os.path.join(TOP, 'crates', 'vq_capture_main', 'out', 'vq_capture_main')):
        if os.path.isfile(path) and os.access(path, os.X_OK):
            return path
    return shutil.which('vqc')


def judged(program, text, memory=False):
    """What a checker says of a capture: the line that it writes."""
    if not program:
        return slow_verdict(text, memory).encode() + b'\n'
    return subprocess.run([program, *(['--memory'] if memory else [])], input=text, capture_output=True,
                          check=False).stdout


def pair_of(said):
    """The two lines that a verdict names, or None."""
    found = DECIDES.fullmatch(said)
    return Pair(found[1].decode(), int(found[2]), int(found[3])) if found else None
