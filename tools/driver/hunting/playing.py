"""Scripts played on a driver, again and again, and what their texts come to."""
import collections
import io
import os
import subprocess

from lowering import Refusal
from outputs import Outputs
from reference import Script

# Statuses of play.
DONE, NOT_READY, REFUSED, LOST, HUNG, LEFT_OUT = range(6)
# What play says where it submits in another order than written.
MOVED = 'another order'
# How many seconds beyond the timeouts of all its runs a play may take before it is stopped from outside.
GRACE = 60


class Stopped(Exception):
    """There is nothing to play on, or vq and the second reading differ: the reason."""


class Fault:
    """What is wrong with a run: its kind, the text of that run, and the judge's line."""

    def __init__(self, kind, text, said):
        self.kind, self.text, self.said = kind, text, said


class Tried:
    """What some runs of a script came to."""

    def __init__(self):
        self.runs, self.is_left_out, self.is_moved = 0, False, False
        # The faults by their kind: how many, and the first one.
        self.counts, self.first = collections.Counter(), {}

    def add(self, kind, text, said, count=1):
        self.counts[kind] += count
        self.first.setdefault(kind, Fault(kind, text, said))

    def end(self, kind, text, said):
        """A run without a text of its own, the last one."""
        self.runs += 1
        self.add(kind, text, said)


class Player:
    """A player's command, with the words that go behind it. Without vq the second reading alone says what is lawful."""

    def __init__(self, command, vq, device, timeout):
        self.words = [command, *(['--vq', vq] if vq else ['--checked']), *(['--device', device] if device else [])]
        self.timeout = timeout

    def play(self, data, runs, is_pinned, timeout=None):
        """Plays a lawful script some times in one process, free or pinned to one processor, and judges each text."""
        seconds = timeout or self.timeout
        words = self.words + ['--runs', str(runs), '--timeout', str(seconds)]
        try:
            done = subprocess.run(words, input=data, capture_output=True, timeout=runs * seconds + GRACE, check=False,
                                  preexec_fn=pin if is_pinned else None)
            status, printed, said = done.returncode, done.stdout, done.stderr.decode('latin-1')
        except subprocess.TimeoutExpired as late:
            status, printed, said = HUNG, late.stdout or b'', 'it was stopped from outside'
        if status in (NOT_READY, REFUSED):
            raise Stopped(said.strip() or f'vq refuses a script that the second reading holds lawful: {printed!r}')
        tried = Tried()
        tried.is_left_out, tried.is_moved = status == LEFT_OUT, MOVED in said
        self.judge(tried, data, status, printed, said)
        return tried

    def judge(self, tried, data, status, printed, said):
        outputs = Outputs(Script(data, False))
        for text, count in collections.Counter(texts(printed)).items():
            tried.runs += count
            misfit = outputs.misfit(text)
            is_hung = text.endswith(b' hang\n')
            if is_hung:
                tried.add('hung', text, f'the host hangs at line {hang_line(text)}')
            if misfit is not None and not (is_hung and misfit.found.endswith(b' hang\n')):
                tried.add('wrong', text, misfit.text(), count)
        if status == LOST:
            lines = [line for line in said.split('\n') if line.startswith('play: ')]
            tried.end('lost', printed, lines[-1] if lines else f'a call of Vulkan failed: {said.strip()[-200:]!r}')
        elif status == HUNG and 'hung' not in tried.counts:
            tried.end('hung', printed, said)
        elif status < 0:
            tried.end('crashed', printed, f'the player was ended by signal {-status}')


def hang_line(text):
    """The line of the script at which a text says that the host hangs."""
    return int(text.splitlines()[-1].split()[0])


def texts(printed):
    """The texts of runs, each up to its line `end` or to a hang. What follows the last of these was cut off."""
    found, lines = [], []
    for line in io.BytesIO(printed).readlines():
        lines.append(line)
        if line == b'end\n' or line.endswith(b' hang\n'):
            found.append(b''.join(lines))
            lines = []
    return found


def pin():
    os.sched_setaffinity(0, {min(os.sched_getaffinity(0))})


def is_lawful(data):
    try:
        Script(data, False)
    except Refusal:
        return False
    return True
