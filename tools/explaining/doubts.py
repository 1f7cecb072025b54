"""What is lawful and surely not meant."""
from lowering import Refusal
from page import word_spans
from reading import read_whole
from reference import lines_of


class Doubt:
    """A warning: where it stands, and what it says."""

    def __init__(self, line, column, text):
        self.line, self.column, self.text = line, column, text


class Doubts:
    """Looks at a lawful script, semaphore by semaphore."""

    def __init__(self, data, word):
        self.data, self.lines = data, [line.decode('latin-1') for line in lines_of(data)]
        self.found = []
        self.reader = read_whole(data, word)
        self.semaphores = [(name.decode(), kind) for name, (kind, _) in self.reader.names.items()
                           if kind not in ('buffer', 'queue')]
        self.sort_uses()

    def sort_uses(self):
        """Of each semaphore the lines that signal it, wait for it, look at it, reset it; and the queue of each line."""
        self.signals, self.waits, self.looks, self.resets = (
            {t: [] for t in range(len(self.semaphores))} for _ in range(4))
        self.lanes = {}
        for job in self.reader.jobs:
            self.lanes[job.line] = job.queue
            if job.queue is None:
                lane = {'host signal': self.signals, 'host fence reset': self.resets}.get(
                    job.kind, self.waits if ' wait' in job.kind else self.looks)
                for t, value in job.pairs:
                    lane[t].append((job.line, value))
                continue
            signals = job.signals + ([job.fence] if job.fence else [])
            for lane, marks in ((self.waits, job.waits), (self.signals, signals)):
                for line, t, value in marks:
                    lane[t].append((line, value))
                    self.lanes[line] = job.queue
        self.idles = [job.line for job in self.reader.jobs if job.kind == 'host idle']

    def warn(self, line, text):
        spans = word_spans(self.lines[line - 1]) if line <= len(self.lines) else []
        self.found.append(Doubt(line, spans[0][0] + 1 if spans else 1, text))

    def all(self):
        for t, (name, kind) in enumerate(self.semaphores):
            if not (self.signals[t] or self.waits[t] or self.looks[t] or self.resets[t]):
                self.warn(self.declared(name), f'{name} is declared and never used')
            elif kind == 'timeline':
                self.timeline(t, name)
            elif kind == 'fence':
                self.fence(t, name)
            elif len(self.signals[t]) > len(self.waits[t]):
                self.warn(self.signals[t][-1][0], f'nothing waits for this signal of {name}')
        self.text()
        return sorted(self.found, key=lambda doubt: (doubt.line, doubt.text))

    def declared(self, name):
        return next(line for line, text in enumerate(self.lines, 1) if text.split('#')[0].split()[1:2] == [name])

    def timeline(self, t, name):
        initial = self.reader.semaphores[t][1]
        # A loop may wait for the initial value in its first round.
        more = {self.lanes[line] for line, value in self.waits[t] if value > initial}
        for line, value in self.waits[t]:
            if value <= initial and self.lanes[line] not in more:
                self.warn(line, f'this wait orders nothing: {name} begins with {initial}')
        if self.signals[t] and not self.waits[t] and not self.looks[t]:
            self.warn(self.signals[t][0][0], f'nothing waits for {name}, and nothing looks at it')

    def fence(self, t, name):
        last = max([line for line, _ in self.signals[t]], default=None)
        if last is None:
            self.warn(self.declared(name), f'no batch names the fence {name}')
        elif not self.waits[t] and not self.looks[t] and not any(idle > last for idle in self.idles):
            self.warn(last, f'the host never waits for the fence {name}')

    def text(self):
        """A text whose lines end with carriage returns alone is one line for the program."""
        for number, line in enumerate(self.lines, 1):
            head, mark, comment = line.partition('#')
            if mark and '\r' in comment:
                self.warn(number, 'a carriage return alone ends no line: all behind it is a part of this comment')


def doubts_of(data, word):
    try:
        return Doubts(data, word).all()
    except Refusal:
        return []
