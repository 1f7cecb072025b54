"""A second reading of two machines: that of a plan (docs/DEFINITIONS.md, "The machine"), and that with several hosts.

A state is a tuple, so that it can stand in sets. `moves(state)` gives pairs of a step and the state that it leaves; a
step is a word with the line of the script from which it comes, and an answer with its text.
"""
from collections import namedtuple

# Numbers of chains; jobs and signals in sets; how many commands of each job are applied; and for each step of the host
# that is started and not finished and looks at chains, the numbers that each of them has had since its start.
State = namedtuple('State', 'numbers started finished made applied answered since')


class Machine:
    """The machine of a plan. The lines of the plan come from these lines of the input."""

    def __init__(self, plan, line_of=lambda line: line):
        self.plan, self.line_of = plan, line_of

    def opening(self):
        nothing = frozenset()
        return State(tuple(self.plan.initial), nothing, nothing, nothing, (0,) * len(self.plan.jobs), nothing, ())

    def is_finished(self, state):
        return len(state.finished) == len(self.plan.jobs)

    def moves(self, state):
        for j, job in enumerate(self.plan.jobs):
            if j not in state.started:
                if self.may_start(state, job):
                    yield ('start', self.line_of(job.line)), self.started(state, j, job)
                continue
            if j not in state.finished:
                yield from self.within(state, j, job)
            if job.is_asked and j not in state.answered:
                for text in self.answers(state, j, job):
                    yield (('answer', self.line_of(job.line), text),
                           state._replace(answered=state.answered | {j}))

    def are_reached(self, state, job, least, most):
        """Whether the needs that hold back a part of a job are reached; of a wait for any of several pairs one is."""
        reached = [state.numbers[t] >= value for _, t, value in job.needs_from(least, most)]
        return any(reached) if job.any else all(reached)

    def may_start(self, state, job):
        firsts = [i for i in (job.previous, job.host_before, *job.idle_after) if i is not None]
        return all(i in state.finished for i in firsts) and self.are_reached(state, job, 1, 1)

    def started(self, state, j, job):
        since = state.since + ((j, tuple((state.numbers[t],) for t, _ in job.asked)),) if job.asked else state.since
        return state._replace(started=state.started | {j}, since=since)

    def within(self, state, j, job):
        """The steps of a job that is started and not finished, but for its answer."""
        done = state.applied[j]
        if done < len(job.commands):
            if self.are_reached(state, job, done + 1, done + 1):
                applied = state.applied[:j] + (done + 1,) + state.applied[j + 1:]
                yield ('apply', self.line_of(job.commands[done][0])), state._replace(applied=applied)
            return
        if not self.are_reached(state, job, 1, 66):
            return
        left = [e for e in job.signals if e not in state.made]
        if left:
            op = self.plan.ops[left[0]]
            if state.numbers[op.chain] < op.value:
                made = state._replace(made=state.made | {left[0]})
                yield ('signal', self.line_of(op.line)), self.with_number(made, op.chain, op.value)
        elif not job.is_asked or j in state.answered:
            since = tuple(seen for seen in state.since if seen[0] != j)
            yield ('finish', self.line_of(job.line)), state._replace(finished=state.finished | {j}, since=since)

    def with_number(self, state, chain, value):
        """A chain gets a number: steps that look at it have seen it from then on."""
        numbers = state.numbers[:chain] + (value,) + state.numbers[chain + 1:]
        since = tuple((j, tuple(seen + (value,) if t == chain else seen
                                for (t, _), seen in zip(self.plan.jobs[j].asked, all_seen)))
                      for j, all_seen in state.since)
        return state._replace(numbers=numbers, since=since)

    def answers(self, state, j, job):
        """The answers that a started step may be given now."""
        if not job.asked:
            return ['ok'] if self.are_reached(state, job, 1, 66) else []
        [seen] = [all_seen for other, all_seen in state.since if other == j]
        if job.kind == 'host read':
            return sorted({f'value {value}' for value in seen[0]})
        quantor = any if job.kind == 'host poll any' else all
        now = quantor(state.numbers[t] >= value for t, value in job.asked)
        before = quantor(numbers[0] >= value for numbers, (_, value) in zip(seen, job.asked))
        no = 'not-ready' if job.kind == 'host fence poll' else 'timeout'
        return (['ok'] if now else []) + ([] if before else [no])


class SeveralHosts(Machine):
    """The machine of a plan, with threads: for each how many of its steps are done, beside the plan's own state."""

    def __init__(self, plan, threads, chain_of):
        super().__init__(plan)
        # Each thread as its steps: the line, whether it is a signal, and pairs of a chain and a value.
        self.threads = [[(step.line, step.kind == 'signal', [(chain_of(name), value) for name, value in step.pairs])
                         for step in thread.steps] for thread in threads]

    def opening(self):
        return super().opening(), (0,) * len(self.threads)

    def is_finished(self, state):
        return super().is_finished(state[0]) and self.are_threads_done(state[1])

    def are_threads_done(self, done):
        return all(count == len(steps) for count, steps in zip(done, self.threads))

    def moves(self, state):
        own, done = state
        for step, after in super().moves(own):
            if self.is_start_of_idle(step) and not self.are_threads_done(done):
                continue
            yield step, (after, done)
        for number, steps in enumerate(self.threads):
            if done[number] < len(steps):
                yield from self.thread_moves(own, steps[done[number]],
                                             done[:number] + (done[number] + 1,) + done[number + 1:])

    def is_start_of_idle(self, step):
        return step[0] == 'start' and any(job.kind == 'host idle' and job.line == step[1] for job in self.plan.jobs)

    def thread_moves(self, own, step, done):
        line, is_signal, pairs = step
        if not is_signal:
            if all(own.numbers[t] >= value for t, value in pairs):
                yield ('thread', line), (own, done)
            return
        [(t, value)] = pairs
        if own.numbers[t] < value:
            yield ('thread', line), (self.with_number(own, t, value), done)


class Image(Machine):
    """The machine of the compiled plan, by the steps of the one with several hosts: None is a step that is dropped.

    The start of a batch that stands for a wait is that wait, the signal of one that stands for a signal is that signal.
    """

    def __init__(self, plan, lines, threads):
        super().__init__(plan, lambda line: lines[line - 1])
        self.kinds = {step.line: step.kind for thread in threads for step in thread.steps}

    def moves(self, state):
        for step, after in super().moves(state):
            kind = self.kinds.get(step[1])
            if kind is None:
                yield step, after
            elif (step[0], kind) in (('start', 'wait'), ('signal', 'signal')):
                yield ('thread', step[1]), after
            else:
                yield None, after

    def closure(self, states):
        """The states that dropped steps lead to from these."""
        found, left = set(states), list(states)
        while left:
            for step, after in self.moves(left.pop()):
                if step is None and after not in found:
                    found.add(after)
                    left.append(after)
        return frozenset(found)
