"""A second reading of what comes before what: the slow run, the jobs before each job, the signals sure for it."""
import heapq

from lowering import Refusal


class Numbers:
    """A set of small numbers: the bits of one integer, so that large sets are joined at once."""

    def __init__(self, bits=0):
        self.bits = bits

    def __contains__(self, number):
        return bool(self.bits >> number & 1)

    def __len__(self):
        return bin(self.bits).count('1')

    def add(self, *numbers):
        for number in numbers:
            self.bits |= 1 << number

    def join(self, other):
        self.bits |= other.bits


# Behind the last command of any batch.
END = 66


class Order:
    """The order of a plan, as far as its slow run comes."""

    def __init__(self, plan):
        self.plan = plan
        self.slow, self.stuck = slow_run(plan)
        self.find_paths()

    def refuse(self):
        """Raises the Refusal of a plan that isn't lawful."""
        plan = self.plan
        numbers = final_numbers(plan, self.slow)
        self.refuse_line('unreachable', [line for j in self.stuck for line in unreached_lines(plan.jobs[j], numbers)])
        self.refuse_pairs('unordered', self.unordered())
        self.refuse_line('fence busy', [plan.jobs[h].line for h, e in plan.resets if e not in self.sure[h]])
        self.refuse_line('not pending', self.not_pending())
        self.refuse_pairs('race', self.races())

    def refuse_line(self, kind, lines):
        """Refuses the least of some lines."""
        if lines:
            raise Refusal(f'{kind}: line {min(lines)}')

    def refuse_pairs(self, kind, pairs):
        """Refuses the least of pairs of lines: by the later line, then by the earlier one."""
        if pairs:
            second, first = min((max(pair), min(pair)) for pair in pairs)
            raise Refusal(f'{kind}: lines {first} and {second}')

    def edges(self, j, last=END):
        """The jobs that must have come some way before this one ends, each with those of its signals made by then.

        Or before its command with this number: waits that hold back later ones only don't count.
        """
        job = self.plan.jobs[j]
        for i in [job.previous, job.host_before, *job.idle_after]:
            if i is not None:
                yield i, self.plan.jobs[i].signals
        # One of several pairs may do, so a wait for any of them is no promise of any.
        for _, t, value in [] if job.any else job.needs_from(1, last):
            e = self.plan.awaited_signal(t, value)
            if e is not None:
                i = self.plan.ops[e].job
                yield i, [signal for signal in self.plan.jobs[i].signals if signal <= e]

    def find_paths(self):
        """The jobs that happen before each job, and the signals that are sure to be made when it ends."""
        self.place = {j: number for number, j in enumerate(self.slow)}
        self.before, self.sure = {}, {}
        # A path to a job leads through jobs that stand earlier in the slow run, so those have all theirs.
        for j in self.slow:
            self.before[j], self.sure[j] = self.paths(j, END)

    def paths(self, j, last):
        """The jobs that happen before the end of one, or before its command with this number, and the signals sure by
        then. What comes before a job that is found already is found with it."""
        before, sure = Numbers(), Numbers()
        edges = [(self.place[i], i, made) for i, made in self.edges(j, last)
                 if i in self.place and self.place[i] < self.place[j]]
        for _, i, made in sorted(edges, reverse=True):
            sure.add(*made)
            if i not in before:
                before.join(self.before[i])
                before.add(i)
                sure.join(self.sure[i])
        return before, sure

    def before_commands(self, j):
        """For each command of a job the jobs that happen before it."""
        job = self.plan.jobs[j]
        if all(held_from == 1 for held_from in job.held_from):
            return [self.before[j]] * len(job.commands)
        return [self.paths(j, number)[0] for number in range(1, len(job.commands) + 1)]

    def unordered(self):
        """The pairs of lines of signals, and of a binary wait and the next signal, that no order is sure for."""
        plan, pairs = self.plan, []
        for kind, initial, chain in zip(plan.kinds, plan.initial, plan.chains):
            if kind == 'timeline':
                pairs += [(plan.ops[e].line,) * 2 for e in chain if plan.ops[e].value <= initial]
                for e, after in zip(chain, chain[1:]):
                    first, second = plan.ops[e], plan.ops[after]
                    if first.value == second.value or e not in self.sure[second.job]:
                        pairs.append((first.line, second.line))
        return pairs + self.overtaken()

    def overtaken(self):
        """The binary waits whose next signal may be made before they are done."""
        plan, pairs = self.plan, []
        for i, job in enumerate(plan.jobs):
            for line, t, _ in job.needs:
                later = [(plan.ops[e].line, plan.ops[e].job) for e in plan.chains[t] if plan.ops[e].line > line]
                if plan.kinds[t] == 'binary' and later:
                    other, j = min(later)
                    if i != j and i not in self.before[j]:
                        pairs.append((line, other))
        return pairs

    def not_pending(self):
        """The lines of waits in batches of immediate queues whose signal may not be pending when they are submitted."""
        plan = self.plan
        hosts = [h for h, job in enumerate(plan.jobs) if job.queue is None]
        at_once = hosts + [i for i, job in enumerate(plan.jobs) if job.queue is not None
                           and plan.modes[job.queue] == b'immediate']
        found = []
        for j, job in enumerate(plan.jobs):
            if job.queue is None or plan.modes[job.queue] != b'immediate':
                continue
            for line, t, value in job.needs:
                e = plan.awaited_signal(t, value)
                if e is None or plan.ops[e].job < j and plan.ops[e].job in at_once:
                    continue
                if not any(e in self.sure[h] for h in hosts if h < j):
                    found.append(line)
        return found

    def races(self):
        """The lines of two commands with a byte in common that one of them writes, neither before the other."""
        commands = [(line, j, before, *touched(command)) for j, job in enumerate(self.plan.jobs)
                    for (line, command), before in zip(job.commands, self.before_commands(j))]
        return [(line, other) for number, (line, i, before, writes, reads) in enumerate(commands)
                for other, j, later, others, read in commands[number + 1:]
                if i != j and i not in later and j not in before
                and (share(writes, others) or share(writes, read) or share(others, reads))]


def slow_run(plan):
    """Again and again the lowest job that can start is done whole: the order, and the jobs that are left over."""
    numbers, order, done = list(plan.initial), [], set()
    parked = Parked(plan)
    ready = []
    for j in range(len(plan.jobs)):
        parked.sort_in(ready, j, done, numbers)
    while ready:
        j = heapq.heappop(ready)
        order.append(j)
        done.add(j)
        raise_numbers(plan, j, numbers)
        for other in parked.woken_by(j, numbers):
            parked.sort_in(ready, other, done, numbers)
    return order, [j for j in range(len(plan.jobs)) if j not in done]


class Parked:
    """The jobs that can't start yet, each beside what it hangs on: a job before it, or a value of a chain."""

    def __init__(self, plan):
        self.plan = plan
        self.behind = {}
        self.below = [[] for _ in plan.chains]
        self.ready = set()

    def sort_in(self, ready, j, done, numbers):
        """Puts a job where it belongs: to those that can start, or beside the first thing that it hangs on."""
        job = self.plan.jobs[j]
        firsts = [i for i in [job.previous, job.host_before, *job.idle_after] if i is not None and i not in done]
        if firsts:
            self.behind.setdefault(firsts[0], []).append(j)
        elif is_reached(job, numbers):
            if j not in self.ready:
                self.ready.add(j)
                heapq.heappush(ready, j)
        else:
            missing = [(value, t) for _, t, value in job.needs if numbers[t] < value]
            for value, t in missing if job.any else missing[:1]:
                heapq.heappush(self.below[t], (value, j))

    def woken_by(self, j, numbers):
        """The jobs that may go on now that one is done."""
        woken = self.behind.pop(j, [])
        for t in {self.plan.ops[e].chain for e in self.plan.jobs[j].signals}:
            while self.below[t] and self.below[t][0][0] <= numbers[t]:
                woken.append(heapq.heappop(self.below[t])[1])
        return woken


def is_reached(job, numbers):
    """Whether what a job waits for is there."""
    reached = [numbers[t] >= value for _, t, value in job.needs]
    if job.any:
        return any(reached)
    return all(reached)


def unreached_lines(job, numbers):
    """The lines of needs that aren't reached. A wait for any of several pairs is unreached whole, or not at all."""
    if job.any:
        return [] if is_reached(job, numbers) else [job.line]
    return [line for line, t, value in job.needs if numbers[t] < value]


def raise_numbers(plan, j, numbers):
    for e in plan.jobs[j].signals:
        op = plan.ops[e]
        numbers[op.chain] = max(numbers[op.chain], op.value)


def final_numbers(plan, order):
    numbers = list(plan.initial)
    for j in order:
        raise_numbers(plan, j, numbers)
    return numbers


def touched(command):
    """The ranges that a command writes and reads, as (buffer, first byte, byte after the last)."""
    if command[0] == 'write':
        _, buffer, offset, written = command
        return (buffer, offset, offset + len(written)), None
    _, source, start, target, place, size = command
    return (target, place, place + size), (source, start, start + size)


def share(first, second):
    return bool(first and second and first[0] == second[0] and max(first[1], second[1]) < min(first[2], second[2]))


def final_buffers(plan, order, sizes):
    """The bytes of the buffers after all commands, in the order of the slow run."""
    held = [bytearray(size) for size in sizes]
    for j in order.slow:
        for _, command in plan.jobs[j].commands:
            do(held, command)
    return held


def do(held, command):
    if command[0] == 'write':
        _, buffer, offset, written = command
        held[buffer][offset:offset + len(written)] = written
    else:
        _, source, start, target, place, size = command
        held[target][place:place + size] = held[source][start:start + size]
