"""A second reading of what a script asks for: its jobs, what each waits for and asks, and each semaphore's signals."""
import bisect


class Refusal(Exception):
    """A script that isn't lawful: the text of its fault."""


class Op:
    """A signal, of a batch or of the host: the value that its chain has from then on."""

    def __init__(self, chain, value, job, line):
        self.chain, self.value, self.job, self.line = chain, value, job, line


class Job:
    """A batch, or a step of the host where its `queue` is None."""

    def __init__(self, line, queue, kind):
        self.line, self.queue, self.kind = line, queue, kind
        # The job before it in its lane, and for a batch the last step of the host that is written before it.
        self.previous = self.host_before = None
        # Pairs of a chain and a value: those that it waits for, with their lines, and those that it only looks at.
        self.needs, self.asked = [], []
        # For each need of a batch the number of the first command that it holds back, counted from 1.
        self.held_from = []
        # Whether one of the needs is enough.
        self.any = False
        # For an idle step: the last batch of each queue that is written before it.
        self.idle_after = []
        self.commands = []
        # The numbers of its signals in `Plan.ops`.
        self.signals = []

    def needs_from(self, least, most):
        """The needs that hold back a command with one of these numbers, and none before it, each with its number."""
        return [(number, t, value) for number, (_, t, value) in enumerate(self.needs)
                if least <= (self.held_from[number] if self.held_from else 1) <= most]

    @property
    def is_asked(self):
        """Whether the step has a line of answer."""
        return self.queue is None and self.kind not in ('host signal', 'host fence reset')

    def answer(self, numbers):
        """The answer of a step that found these numbers of the chains that it asks for."""
        if self.kind == 'host read':
            return f'value {numbers[0]}'
        reached = [number >= value for number, (_, value) in zip(numbers, self.asked)]
        if any(reached) if self.kind == 'host poll any' else all(reached):
            return 'ok'
        return 'not-ready' if self.kind == 'host fence poll' else 'timeout'


class Plan:
    """All jobs in the order of their lines, all signals, and for each semaphore the chain of its signals by value."""

    def __init__(self, reader):
        semaphores = [(name, kind) for name, (kind, _) in reader.names.items() if kind not in ('buffer', 'queue')]
        self.names = [name.decode() for name, _ in semaphores]
        self.kinds = [kind for _, kind in semaphores]
        self.initial = [value for _, value in reader.semaphores]
        self.modes = reader.queues
        self.jobs, self.ops = [], []
        # The resets that end a use of their fence: the step, and the signal of that use.
        self.resets = []
        # How often each binary semaphore was signaled and waited for.
        self.signaled, self.waited = [0] * len(self.kinds), [0] * len(self.kinds)
        # For each fence how often it was reset with effect, and the signal of its use since.
        self.rounds, self.used = [0] * len(self.kinds), [None] * len(self.kinds)
        # The last job of each lane, by its queue.
        self.last = {}
        for written in reader.jobs:
            self.add(written)
        self.chains = [[] for _ in self.kinds]
        for e, op in enumerate(self.ops):
            self.chains[op.chain].append(e)
        for chain in self.chains:
            chain.sort(key=lambda e: (self.ops[e].value, self.ops[e].line))
        # The values along each chain.
        self.values = [[self.ops[e].value for e in chain] for chain in self.chains]

    def add(self, written):
        job = Job(written.line, written.queue, written.kind)
        job.previous = self.last.get(job.queue)
        if job.queue is not None:
            job.host_before = self.last.get(None)
        self.jobs.append(job)
        if job.queue is None:
            self.lower_step(job, written.pairs)
        else:
            self.lower_batch(job, written)
        self.last[job.queue] = len(self.jobs) - 1

    # Batches.

    def lower_batch(self, job, batch):
        job.needs = [(line, t, self.awaited(line, t, value)) for line, t, value in batch.waits]
        job.held_from = batch.held_from
        job.commands = batch.commands
        for line, t, value in batch.signals:
            self.signal(job, line, t, self.next_signal(line, t) if self.kinds[t] == 'binary' else value)
        if batch.fence:
            line, t, _ = batch.fence
            if self.used[t] is not None:
                raise Refusal(f'fence used: line {line}')
            self.used[t] = len(self.ops)
            self.signal(job, line, t, self.rounds[t] + 1)

    def awaited(self, line, t, value):
        """The value that a wait names: that of the last signal before it for a binary semaphore."""
        if self.kinds[t] != 'binary':
            return value
        if self.signaled[t] <= self.waited[t]:
            raise Refusal(f'no signal: line {line}')
        self.waited[t] += 1
        return self.signaled[t]

    def next_signal(self, line, t):
        """The value of the next signal of a binary semaphore."""
        if self.signaled[t] > self.waited[t]:
            raise Refusal(f'signaled twice: line {line}')
        self.signaled[t] += 1
        return self.signaled[t]

    def signal(self, job, line, t, value):
        job.signals.append(len(self.ops))
        self.ops.append(Op(t, value, len(self.jobs) - 1, line))

    # Steps of the host.

    def lower_step(self, job, pairs):
        # A fence names the use that was begun since the last reset with effect, or the one that comes next.
        pairs = [(t, self.rounds[t] + 1 if self.kinds[t] == 'fence' else value) for t, value in pairs]
        if job.kind == 'host signal':
            [(t, value)] = pairs
            self.signal(job, job.line, t, value)
        elif job.kind in ('host wait all', 'host wait any', 'host fence wait'):
            job.needs = [(job.line, t, value) for t, value in pairs]
            job.any = job.kind == 'host wait any' and len(pairs) > 1
        elif job.kind in ('host poll all', 'host poll any', 'host fence poll'):
            job.asked = pairs
        elif job.kind == 'host read':
            [(t, _)] = pairs
            job.asked = [(t, 0)]
        elif job.kind == 'host fence reset':
            [(t, _)] = pairs
            self.reset(t)
        elif job.kind == 'host idle':
            job.idle_after = [self.last[queue] for queue in range(len(self.modes)) if queue in self.last]

    def reset(self, t):
        """A reset has effect where its fence was named since the last one that had."""
        if self.used[t] is not None:
            self.resets.append((len(self.jobs) - 1, self.used[t]))
            self.used[t] = None
            self.rounds[t] += 1

    # What all readings of order ask.

    def resolver(self, t, value):
        """The first signal of a chain with this value or a greater one, or None."""
        place = bisect.bisect_left(self.values[t], value)
        return self.chains[t][place] if place < len(self.chains[t]) else None

    def awaited_signal(self, t, value):
        """The signal that a pair needs: None where the initial value is enough, or where nothing reaches the value."""
        return self.resolver(t, value) if value > self.initial[t] else None
