"""A script whose order is explained: its plan, its order, and how its jobs and signals are called."""
from lowering import Plan, Refusal
from paths import Paths
from reading import read_whole


class Asked:
    def __init__(self, page, word):
        self.page, self.at = page, page.at
        self.reader = read_whole(page.draft.data(), word)
        # The threads, of which each line is a batch here, and the lines of their blocks.
        self.threads, self.block_lines = [], set()
        if word == '--hosts':
            self.threads, self.block_lines = self.reader.threads, self.reader.block_lines
        self.plan = Plan(self.reader)
        self.order = Paths(self.plan)
        self.queues, self.buffers = ({number: name.decode() for name, (kind, number) in self.reader.names.items()
                                      if kind == wanted} for wanted in ('queue', 'buffer'))
        # The first and the last line of each job.
        self.first = [job.line for job in self.plan.jobs]
        self.last = []
        ends = [line for line, text in enumerate(page.lines, 1)
                if 'end' in text and text.split('#')[0].split() == ['end'] and line not in self.block_lines]
        ends.reverse()
        for j, job in enumerate(self.plan.jobs):
            self.last.append(job.line if job.queue is None or self.is_of_thread(j) else ends.pop())

    # What things are called.

    def called(self, j):
        job = self.plan.jobs[j]
        if job.queue is None:
            return f'`{job.kind}` of line {self.at(job.line)}'
        if self.is_of_thread(j):
            return f'line {self.at(job.line)} of the thread {self.queues[job.queue]}'
        return f'the batch of {self.queues[job.queue]} at line {self.at(job.line)}'

    def signal(self, e):
        op = self.plan.ops[e]
        name = self.plan.names[op.chain]
        if self.plan.kinds[op.chain] == 'timeline':
            return f'the signal of {name} {op.value} at line {self.at(op.line)}'
        if self.plan.kinds[op.chain] == 'fence':
            return f'{name}, which line {self.at(op.line)} names'
        return f'the signal of {name} at line {self.at(op.line)}'

    def show(self, j):
        self.page.show(self.first[j], self.last[j])

    def job_at(self, line):
        return next(j for j in range(len(self.first)) if self.first[j] <= line <= self.last[j])

    # What is where.

    @property
    def first_line(self):
        """Where a declaration may be put in."""
        return self.threads[0].line if self.threads else self.first[0]

    @property
    def end(self):
        """Where a line of the host may be put in behind all others."""
        return max([self.last[-1], *self.block_lines]) + 1

    def is_of_thread(self, j):
        """Whether a job is a line of a thread's block."""
        return self.plan.jobs[j].line in self.block_lines

    def has_pairs(self, line):
        """Whether a line of a block waits for several pairs."""
        return line in self.block_lines and len(self.words(line)) > 3

    def is_immediate(self, j):
        job = self.plan.jobs[j]
        return job.queue is not None and self.plan.modes[job.queue] == b'immediate'

    def is_before(self, i, j):
        return j in self.order.after(i)

    def is_behind(self, p, i):
        """Whether job p is i, or comes behind it."""
        return p == i or self.is_before(i, p)

    def words(self, line):
        return self.page.lines[line - 1].split('#')[0].split()

    def held_text(self, line):
        """What a wait's line says of the commands that it holds back, with a space before it."""
        words = self.words(line)
        return f' from {words[-1]}' if len(words) > 3 and words[-2] == 'from' else ''

    def place(self, j, line):
        """Which command of a batch stands at a line, counted from 1."""
        return next(place for place, (at, _) in enumerate(self.plan.jobs[j].commands, 1) if at == line)

    def held_waits(self, j):
        """The waits of a batch that hold back a part of it: the line, the signal, the first command held back."""
        job = self.plan.jobs[j]
        for (line, t, value), held_from in zip(job.needs, job.held_from):
            e = self.plan.awaited_signal(t, value)
            if held_from > 1 and e is not None:
                yield line, e, held_from

    def declared(self, name):
        """The line that declares a name."""
        return next(line for line in range(1, len(self.page.lines) + 1) if self.words(line)[1:2] == [name])

    def fresh(self, name):
        """A name that is free."""
        number, tried = 1, name
        while tried.encode() in self.reader.names:
            number += 1
            tried = f'{name}_{number}'
        return tried

    def highest(self, t):
        return max([self.plan.initial[t]] + self.plan.values[t][-1:])

    # What comes before a job.

    def links(self, j):
        """What leads to a job at once: the other job, and why."""
        job = self.plan.jobs[j]
        if job.previous is not None:
            why = f'comes before it in its {"thread" if self.is_of_thread(j) else "queue"}'
            why = 'comes before it in the host\'s lines' if job.queue is None else why
            yield job.previous, why
        if job.host_before is not None:
            yield job.host_before, 'is the last host line before it'
        for i in job.idle_after:
            last = 'line of its thread' if self.is_of_thread(i) else 'batch of its queue'
            yield i, f'is the last {last} before `host idle`'
        for line, t, value in [] if job.any else job.needs:
            e = self.plan.awaited_signal(t, value)
            if e is not None:
                yield self.plan.ops[e].job, f'is waited for at line {self.at(line)}, by {self.signal(e)}'

    def note_before(self, j):
        """Says what comes before a job at once, and how many jobs more."""
        said = {}
        before = self.order.before(j)
        for i, why in self.links(j):
            if i in before:
                said.setdefault(i, why)
        if not said:
            self.page.note(f'nothing comes before {self.called(j)}')
            return
        for i, why in list(said.items())[:4]:
            self.page.note(f'{self.called(i)} comes before {self.called(j)}: it {why}')
        more = len(before) - len(said)
        if more:
            jobs = '1 job more comes' if more == 1 else f'{more} jobs more come'
            self.page.note(f'through these {jobs} before {self.called(j)}')


def asked_or_none(page, word):
    """None where the script can't be read or lowered."""
    try:
        return Asked(page, word)
    except Refusal:
        return None
