"""What has happened in the construction, and the events that change it: a part of the second reading of docs/TURNS.md.

Each event gives its text in the trace. Signals are known by their numbers in the plan. What may happen when is for the
actors to know, in batch_turns.py and host_turns.py. A turn that isn't one of an event is blocked or ended.
"""
BLOCKED, ENDED = '-', '.'


class Scene:
    def __init__(self, plan):
        self.plan = plan
        self.submitted, self.released, self.started, self.finished = set(), set(), set(), set()
        self.applied = [0] * len(plan.jobs)
        self.points = 0
        # The point that each signal was given, and the signals that are pending or were, that are made, that are past.
        self.point, self.bound, self.made, self.past = {}, set(), set(), set()
        # The points of each chain that are free, the last one first to be used, and those that wait to be freed.
        self.free = [[] for _ in plan.chains]
        self.waiting = [[] for _ in plan.chains]
        # For each actor the references that it holds: by the number of a need, the point and its signal.
        self.held = {}

    # What can be seen.

    def name(self, e):
        op = self.plan.ops[e]
        return f'{self.plan.names[op.chain]} {op.value}'

    def line(self, j):
        return self.plan.jobs[j].line

    def past_value(self, t):
        """The value of the last completed signal of a chain, or the initial one."""
        return max([self.plan.initial[t]] + [self.plan.ops[e].value for e in self.plan.chains[t] if e in self.past])

    def unbound_before(self, e):
        """Whether a signal with a smaller value isn't pending yet."""
        chain = self.plan.chains[self.plan.ops[e].chain]
        return any(other not in self.bound for other in chain[:chain.index(e)])

    def is_bound_whole(self, j):
        return j in self.released and all(e in self.bound for e in self.plan.jobs[j].signals)

    # Jobs.

    def submit(self, j):
        self.submitted.add(j)
        return f'submit {self.line(j)}'

    def release(self, j):
        self.released.add(j)
        return f'release {self.line(j)}'

    def start(self, j):
        self.started.add(j)
        return f'start {self.line(j)}'

    def apply(self, j):
        self.applied[j] += 1
        return f'apply {self.plan.jobs[j].commands[self.applied[j] - 1][0]}'

    def signal(self, e):
        self.made.add(e)
        return f'signal {self.name(e)}'

    def finish(self, j):
        self.finished.add(j)
        return f'finish {self.line(j)}'

    # Points.

    def collect(self, t):
        """Completes the least pending signal, or frees the first point that nobody refers to; or nothing."""
        pending = [e for e in self.plan.chains[t] if e in self.bound and e not in self.past]
        if pending and pending[0] in self.made:
            self.past.add(pending[0])
            self.waiting[t].append(self.point[pending[0]])
            return f'complete {self.name(pending[0])}'
        for point in self.waiting[t]:
            if not any(point == other for held in self.held.values() for other, _ in held.values()):
                self.waiting[t].remove(point)
                self.free[t].append(point)
                return f'free {point}'
        return None

    def take(self, e):
        t = self.plan.ops[e].chain
        if self.free[t]:
            self.point[e] = self.free[t].pop()
            return f'take {self.name(e)} reused {self.point[e]}'
        self.point[e] = self.points
        self.points += 1
        return f'take {self.name(e)} fresh {self.point[e]}'

    def bind(self, e):
        self.bound.add(e)
        return f'bind {self.name(e)} {self.point[e]}'

    # References: of one actor, for one need of its job.

    def refer(self, actor, number, e):
        self.held.setdefault(actor, {})[number] = self.point[e], e
        return f'refer {self.point[e]} {self.name(e)}'

    def look(self, actor, number):
        point, e = self.held[actor][number]
        return f'look {point} {self.name(e)}'

    def unrefer(self, actor, number):
        point, e = self.held[actor].pop(number)
        return f'unref {point} {self.name(e)}'
