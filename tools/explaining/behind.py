"""Mends that put one job behind another: each is what to do, and the edits."""
from draft import delete, insert, replace

# So many signals are tried, where many would do.
MOST_SIGNALS = 4


class Behind:
    """Ways to put job j behind job i, or behind one signal of it."""

    def __init__(self, asked, i, j):
        self.asked, self.plan, self.i, self.j = asked, asked.plan, i, j
        self.job = asked.plan.jobs[j]

    def is_open(self):
        return self.i != self.j and not self.asked.is_before(self.j, self.i)

    def groups(self):
        """All ways: by what is signaled already, by a timeline of its own, and by an idle host."""
        if not self.is_open():
            return []
        return [self.given(), self.fences(), self.of_its_own(), self.idle()]

    def given(self, only=None):
        """Waits for timelines' signals that stand there: of the job itself first, then of jobs behind it."""
        asked, plan = self.asked, self.plan
        behind, late = {self.i, *asked.order.after(self.i)}, {self.j, *asked.order.after(self.j)}
        ops = [op for op in plan.ops if op.job in behind and op.job not in late and plan.kinds[op.chain] == 'timeline'
               and op.value > plan.initial[op.chain]]
        if only is not None:
            ops = [plan.ops[only]]
        ops.sort(key=lambda op: (op.job != self.i, op.line))
        return [mend for op in ops[:MOST_SIGNALS] for mend in self.wait_for(op)]

    def wait_for(self, op):
        """The ways to wait for one signal: a wait of that timeline is raised, or one is put in."""
        asked, name = self.asked, self.plan.names[op.chain]
        held, why = f'{name} {op.value}', f'line {asked.at(op.line)} signals that'
        if self.job.queue is None or asked.is_immediate(self.j):
            if op.job < self.j:
                yield from self.raised_host_wait(op)
                yield (f'let the host wait for {held} before {asked.called(self.j)}: {why}',
                       [insert(self.job.line, f'host wait all {held}')])
            return
        for line, t, value in self.job.needs:
            if t == op.chain and value < op.value and not asked.has_pairs(line):
                yield f'wait for {held} at line {asked.at(line)}: {why}', [replace(line, f'wait {held}')]
        yield (f'let {asked.called(self.j)} wait for {held}: {why}', [insert(self.wait_place(), f'wait {held}')])

    def raised_host_wait(self, op):
        """A wait of the host for less of that timeline, between which and the job are no other queue's batches."""
        plan, h = self.plan, self.j - 1
        while h > op.job and plan.jobs[h].queue in (None, self.job.queue):
            step = plan.jobs[h]
            if step.kind == 'host wait all' and any(t == op.chain and value < op.value for _, t, value in step.needs):
                pairs = ' '.join(f'{plan.names[t]} {op.value if t == op.chain else value}' for _, t, value in step.needs)
                text = (f'let the host wait for {plan.names[op.chain]} {op.value} at line {self.asked.at(step.line)}: '
                        f'line {self.asked.at(op.line)} signals that')
                yield text, [replace(step.line, f'host wait all {pairs}')]
                return
            h -= 1

    def wait_place(self):
        """Where a wait of the job can be put in: a line of a thread has it before itself."""
        return self.job.line + (0 if self.asked.is_of_thread(self.j) else 1)

    def fences(self):
        """Host's waits for fences of batches that come no sooner, while these are in use."""
        asked, plan, found = self.asked, self.plan, []
        for e, op in enumerate(plan.ops):
            if (plan.kinds[op.chain] == 'fence' and op.job < self.j and asked.is_behind(op.job, self.i)
                    and not any(done == e and h < self.j for h, done in plan.resets)):
                name = plan.names[op.chain]
                text = f'let the host wait for {name} before {asked.called(self.j)}: line {asked.at(op.line)} names it'
                found.append((text, [insert(self.job.line, f'host fence wait {name}')]))
        return found[:MOST_SIGNALS]

    def of_its_own(self):
        """A timeline for this order alone."""
        asked, name = self.asked, self.asked.fresh('order')
        declared = insert(asked.first_line, f'timeline {name} 0')
        first = asked.reader.jobs[self.i]
        if asked.is_of_thread(self.i):
            signal, who = insert(asked.last[self.i] + 1, f'signal {name} 1'), 'the thread behind it'
        elif first.queue is None:
            signal, who = insert(asked.last[self.i] + 1, f'host signal {name} 1'), 'the host'
        else:
            signal = insert(first.fence[0] if first.fence else asked.last[self.i], f'signal {name} 1')
            who = asked.called(self.i)
        if self.job.queue is None or asked.is_immediate(self.j):
            if self.i > self.j:
                return []
            wait, waits = insert(self.job.line, f'host wait all {name} 1'), f'the host before {asked.called(self.j)}'
        else:
            wait, waits = insert(self.wait_place(), f'wait {name} 1'), asked.called(self.j)
        return [(f'let {who} signal a timeline {name}, and {waits} wait for it', [declared, signal, wait])]

    def idle(self):
        if self.i > self.j or self.asked.is_of_thread(self.j):
            return []
        text = f'let the host wait for idle before {self.asked.called(self.j)}'
        return [(text, [insert(self.job.line, 'host idle')])]


def woven(*ways):
    """Groups of several lists of groups, taken side by side: what fits first of any comes first."""
    longest = max(len(groups) for groups in ways)
    return [[mend for groups in ways if place < len(groups) for mend in groups[place]] for place in range(longest)]


def moved_behind(asked, h, j):
    """A line of the host, behind job j."""
    line = asked.plan.jobs[h].line
    return (f'move line {asked.at(line)} behind {asked.called(j)}',
            [delete(line), insert(asked.last[j] + 1, asked.page.lines[line - 1])])
