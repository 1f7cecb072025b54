"""The verdicts on a script, and the choice of a mend: each that is offered was tried before."""
import subprocess

from judging import audit
from lowering import Refusal
from reading import script_of, word_of
from reference import Script

LINE_FAULTS = ('syntax', 'order', 'number', 'name', 'twice', 'range', 'overlap', 'limit')
USE_FAULTS = ('no signal', 'signaled twice', 'fence used')
ORDER_FAULTS = ('unreachable', 'unordered', 'fence busy', 'not pending', 'race')
# Of the trace behind a script: a line that can't be read, and one that may not come.
TRACE_FAULTS = ('trace', 'broken')
# The kinds as they are looked for: those of lines together, and so those of uses.
RANKS = {kind: 1 for kind in LINE_FAULTS} | {kind: 2 for kind in USE_FAULTS} | {
    kind: 3 + place for place, kind in enumerate(ORDER_FAULTS + TRACE_FAULTS)}
# So many of a mend's parts are looked for, where one wait behind another is reached in no order; of a large script one.
MOST_PARTS, LARGE = 6, 20_000
# So many mends are tried, of large scripts fewer: as many as make up so many bytes.
MOST_TRIES, LEAST_TRIES, BYTES_TRIED = 64, 4, 1_000_000
# The second reading is slower than the program, and reads texts of so many bytes at most.
BYTES_READ = 100_000


class Verdict:
    """What the program answers: its status and its text, and of a refusal its kind and its lines."""

    def __init__(self, status, text):
        self.status, self.text = status, text
        self.kind, self.lines = None, []
        if status == 2 and text.startswith('error: ') or text.startswith('broken: '):
            self.kind, *where = text.removeprefix('error: ').strip().split(': ')
            self.lines = [int(word) for word in ' '.join(where).split() if word.isdigit()]

    @property
    def outcome(self):
        """The status of a tool that tells of it: a broken trace counts as refused."""
        return 2 if self.kind else self.status

    def place(self, draft):
        """Where the fault stands among all faults: None for one of a line that was put in, or of no line."""
        numbers = [draft.origin(line) for line in self.lines]
        if None in numbers or self.kind not in RANKS:
            return None
        return [RANKS[self.kind], *reversed(numbers)]


class Trial:
    """Asks the program, or the second reading where there is none; knows by which word a script is read."""

    def __init__(self, program, data, word=None):
        self.program, self.size = program, len(data)
        self.word = word or word_of(data)
        self.parts = MOST_PARTS if len(data) < LARGE else 1
        self.most = max(LEAST_TRIES, min(MOST_TRIES, (BYTES_TRIED if program else BYTES_READ) // max(1, len(data))))
        self.tries = 0

    def has_tries(self):
        return self.tries < self.most

    def try_mend(self, text, draft):
        self.tries += 1
        return Mend([text], draft, self.ask(draft.data()))

    def ask(self, data):
        if self.program is None:
            return self.read(data)
        done = subprocess.run([self.program, self.word], input=data, capture_output=True, check=False)
        # A signal counts as for a shell.
        status = done.returncode if done.returncode >= 0 else 128 - done.returncode
        return Verdict(status, done.stdout.decode('latin-1'))

    def read(self, data):
        if self.word == '--audit':
            status, text = audit(data, lambda written: Script(written, False), Refusal)
            return Verdict(status, text.decode('latin-1'))
        try:
            script_of(data, self.word)
        except Refusal as refusal:
            return Verdict(2, f'error: {refusal}\n')
        return Verdict(0, 'lawful\n')


class Mend:
    """A change of a script that was tried: what to do, the lines then, and whether they are lawful."""

    def __init__(self, texts, draft, verdict):
        self.texts, self.draft, self.verdict = texts, draft, verdict

    def text(self):
        return '; and then '.join(self.texts)


class OnlyLawful(list):
    """A group of mends of which each is offered only where the script is lawful then."""


def choose(trial, draft, verdict, groups_of, parts=None):
    """The first mend of the first group that has a good one, a lawful one before others; or None.

    `groups_of(draft, verdict)` gives groups of pairs: what to do, and the edits. A good mend is lawful or has a later
    fault, but never one of a wait that no order reaches. Where such a wait is mended and all that is to be had is
    another one behind it, that one is mended too.
    """
    parts = trial.parts if parts is None else parts
    further = None
    for group in groups_of(draft, verdict):
        best = None
        for text, edits in group:
            if not trial.has_tries():
                return best
            mend = trial.try_mend(text, draft.apply(edits))
            if mend.verdict.status == 0:
                return mend
            if not isinstance(group, OnlyLawful) and is_later(mend.verdict.place(mend.draft), verdict.place(draft)):
                if mend.verdict.kind == 'unreachable':
                    further = further or mend
                else:
                    best = best or mend
        if best:
            return best
    if further is None or parts == 1 or verdict.kind != 'unreachable':
        return None
    rest = choose(trial, further.draft, further.verdict, groups_of, parts - 1)
    return rest and Mend(further.texts + rest.texts, rest.draft, rest.verdict)


def is_later(place, other):
    return place is not None and other is not None and place > other
