"""Whether an order of the jobs of a script can hang on a device of some queues, by playing it through."""


class Devices:
    """The queues of a device, each with its batches that aren't done, and what is made so far."""

    def __init__(self, plan, count):
        self.plan, self.count = plan, count
        self.numbers, self.done = list(plan.initial), set()
        self.waiting = [[] for _ in range(count)]

    def is_reached(self, job):
        reached = [self.numbers[t] >= value for _, t, value in job.needs]
        return any(reached) if job.any else all(reached)

    def make(self, j):
        self.done.add(j)
        for e in self.plan.jobs[j].signals:
            op = self.plan.ops[e]
            self.numbers[op.chain] = max(self.numbers[op.chain], op.value)

    def advance(self):
        """Lets each queue go on as far as it can."""
        has_moved = True
        while has_moved:
            has_moved = False
            for batches in self.waiting:
                while batches and self.is_reached(self.plan.jobs[batches[0]]):
                    self.make(batches.pop(0))
                    has_moved = True

    def fault(self, j, placed):
        """Why the host may not come to a job now, or None."""
        job = self.plan.jobs[j]
        if any(i is not None and i not in placed for i in (job.previous, job.host_before)):
            return 'what is written before it in its queue, or a host step, comes later'
        if job.queue is None:
            is_free = self.is_reached(job) and all(i in self.done for i in job.idle_after)
            return None if is_free else 'the host would hang'
        binaries = [(t, value) for _, t, value in job.needs if self.plan.kinds[t] == 'binary']
        if any(self.numbers[t] < value for t, value in binaries):
            return 'what a binary signal depends on comes later'
        return None

    def place(self, j):
        job = self.plan.jobs[j]
        if job.queue is None:
            self.make(j)
        else:
            self.waiting[min(job.queue, self.count - 1)].append(j)
        self.advance()


def order_fault(plan, order, count):
    """Why an order isn't one of the plan's jobs that can't hang, or None."""
    if sorted(order) != list(range(len(plan.jobs))):
        return 'a job is missing'
    devices, placed = Devices(plan, count), set()
    for j in order:
        fault = devices.fault(j, placed)
        if fault is not None:
            return f'line {plan.jobs[j].line}: {fault}'
        placed.add(j)
        devices.place(j)
    return None if len(devices.done) == len(order) else 'a batch is never done'
