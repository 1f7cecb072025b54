"""Races: what the two commands touch, and which waits near them order nothing, or less than is needed."""
from order import touched

ORDERS = 'the batches of a queue, a wait and the signal that reaches it, and the host\'s lines order batches'
LOOKS = ('host poll all', 'host poll any', 'host read', 'host fence poll')


def race(asked, page, first, second):
    i, j = asked.job_at(first), asked.job_at(second)
    ranges = [mark_command(asked, page, k, line) for k, line in ((i, first), (j, second))]
    shared = [(max(a[1], b[1]), min(a[2], b[2]), a[0]) for one, a in ranges[0] for other, b in ranges[1]
              if a[0] == b[0] and max(a[1], b[1]) < min(a[2], b[2]) and 'writes' in (one, other)]
    start, end, buffer = shared[0]
    page.note(f'both touch byte {start} of {asked.buffers[buffer]}' if end == start + 1 else
              f'both touch bytes {start} to {end - 1} of {asked.buffers[buffer]}')
    mark_held(asked, page, i, j, second)
    mark_held(asked, page, j, i, first)
    asked.note_before(i)
    asked.note_before(j)
    Guilty(asked, page, i, j).mark_all()
    page.rule('of two commands that share a byte and one of which writes it, one comes before the other; '
              f'{ORDERS}')
    page.help(f'let {asked.called(i)} signal a timeline, and {asked.called(j)} wait for that value, or the other way '
              'round')


def mark_held(asked, page, i, j, line):
    """Marks the waits that put job j behind job i, but not its command at this line."""
    place = asked.place(j, line)
    for at, e, held_from in asked.held_waits(j):
        if held_from > place and asked.is_behind(asked.plan.ops[e].job, i):
            page.mark(at, f'holds back what stands behind line {asked.at(line)}: the commands from number {held_from} on')


def mark_command(asked, page, k, line):
    """Marks what a command touches, and gives it: what it does, and the range."""
    asked.show(k)
    writes, reads = touched(next(command for at, command in asked.plan.jobs[k].commands if at == line))
    found = [(what, held) for what, held in (('writes', writes), ('reads', reads)) if held]
    page.mark(line, ' and '.join(f'{what} bytes {start} to {end - 1} of {asked.buffers[buffer]}'
                                 for what, (buffer, start, end) in found))
    return found


class Guilty:
    """The waits that might have been meant to put one of two jobs behind the other."""

    def __init__(self, asked, page, i, j):
        self.asked, self.page, self.plan, self.i, self.j = asked, page, asked.plan, i, j

    def mark_all(self):
        for k, other in ((self.i, self.j), (self.j, self.i)):
            for line, t, value in self.plan.jobs[k].needs:
                self.mark_wait(line, t, value, other)
        for h in range(self.j):
            if self.plan.jobs[h].queue is None:
                self.mark_host_line(h, self.plan.jobs[h])

    def enough(self, t, other):
        """The first signal of a chain that is made behind a job, or None."""
        return next((e for e in self.plan.chains[t] if self.is_made_behind(e, other)), None)

    def is_made_behind(self, e, other):
        return self.asked.is_behind(self.plan.ops[e].job, other)

    def mark_wait(self, line, t, value, other):
        """Says what is wrong with a wait that puts nothing behind another job: a value too low where the mend raises it,
        as the one that is meant may be another wait."""
        plan, at = self.plan, self.asked.at
        e = self.enough(t, other)
        behind = '' if e is None else f'; line {at(plan.ops[e].line)} signals {plan.ops[e].value}'
        if plan.kinds[t] == 'timeline' and value <= plan.initial[t]:
            self.page.mark(line, f'orders nothing: {plan.names[t]} begins with {plan.initial[t]}{behind}')
        elif plan.kinds[t] == 'timeline' and e is not None and value < plan.ops[e].value:
            reached = plan.awaited_signal(t, value)
            self.page.suspect(line, f'a value too low: line {at(plan.ops[reached].line)} reaches it; '
                              f'line {at(plan.ops[e].line)}, behind {self.asked.called(other)}, signals {plan.ops[e].value}')

    def mark_host_line(self, h, job):
        """Of host lines between the two: a poll, a wait for any, a wait for too little."""
        pairs = [(t, value) for _, t, value in job.needs] + job.asked
        signaled = [self.enough(t, self.i) for t, _ in pairs]
        if not any(e is not None for e in signaled):
            return
        if job.kind in LOOKS:
            if h > self.i:
                self.page.mark(job.line, 'orders nothing, whatever it answers')
        elif job.any:
            if h > self.i:
                self.page.mark(job.line, 'orders nothing: any of its pairs may have ended it')
        elif h > self.i:
            for t, value in pairs:
                self.mark_wait(job.line, t, value, self.i)
