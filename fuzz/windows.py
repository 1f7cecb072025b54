"""A second reading of what the host may be answered: the window of each answer, and what earlier answers show.

An answer depends on how far the other queues are. What is certain before a step bounds it from below, and what comes
only after it from above. Each answer shows signals that are made, and so bounds the later ones from below too. Where a
pair of several was reached, it isn't told which one; so answers fit where for some choice of such pairs each fits.
"""
import functools

NEGATIVE = {'host poll all': 'timeout', 'host poll any': 'timeout', 'host fence poll': 'not-ready'}


class Windows:
    def __init__(self, plan, order):
        self.plan, self.order = plan, order
        self.asked = [h for h, job in enumerate(plan.jobs) if job.is_asked]
        # What is asked for again and again is kept, as long as these windows are.
        for question in ('floor', 'ceiling', 'carried', 'known', 'demands', 'choices'):
            setattr(self, question, functools.cache(getattr(self, question)))

    # Values. In a lawful plan the signals of a chain rise. Those that are certain for a job are the first ones, and
    # those that come after it the last ones.

    def value_of_first(self, t, holds):
        """The greatest value of the first signals of a chain, for all of which something holds, or the initial one."""
        chain, count, more = self.plan.chains[t], 0, len(self.plan.chains[t])
        while more > 0:
            half = (more + 1) // 2
            if holds(chain[count + half - 1]):
                count, more = count + half, more - half
            else:
                more = half - 1
        return self.plan.ops[chain[count - 1]].value if count else self.plan.initial[t]

    def floor(self, h, t):
        """What is certain when a step starts."""
        return self.value_of_first(t, lambda e: e in self.order.sure[h])

    def ceiling(self, h, t):
        """What can be there before a step is finished: all but what waits for it."""
        return self.value_of_first(t, lambda e: h not in self.order.before[self.plan.ops[e].job])

    def carried(self, e, t):
        """What is certain of a chain where a signal is made: by itself, the earlier ones of its job, and its job's."""
        job = self.plan.ops[e].job
        earlier = [self.plan.ops[other] for other in self.plan.jobs[job].signals if other <= e]
        return max([self.floor(job, t)] + [op.value for op in earlier if op.chain == t])

    def known(self, t):
        """The values that a chain ever has, each by the answer of a read."""
        values = [self.plan.initial[t]] + [self.plan.ops[e].value for e in self.plan.chains[t]]
        return {f'value {value}': value for value in values}

    # One answer.

    def demands(self, h, answer):
        """What an answer asks of what is shown before it, or None where no run gives it.

        A list of lists of pairs: of each list one chain is shown below its value.
        """
        job = self.plan.jobs[h]
        if job.kind == 'host read':
            [(t, _)] = job.asked
            value = self.known(t).get(answer, -1)
            return [[(t, value + 1)]] if self.floor(h, t) <= value <= self.ceiling(h, t) else None
        if answer == 'ok':
            return [] if self.choices(h, answer) else None
        if answer != NEGATIVE.get(job.kind):
            return None
        above = [(t, value) for t, value in job.asked if value > self.floor(h, t)]
        if job.kind == 'host poll any':
            return [[pair] for pair in above] if above == job.asked else None
        return [above] if above else None

    def choices(self, h, answer):
        """The pairs that an answer shows reached: a list of them for each choice."""
        job = self.plan.jobs[h]
        if job.kind == 'host read':
            return [[(job.asked[0][0], int(answer[6:]))]]
        if answer != 'ok':
            return [[]]
        if job.any or job.kind == 'host poll any':
            pairs = job.asked or [(t, value) for _, t, value in job.needs]
            return [[(t, value)] for t, value in pairs if value <= self.ceiling(h, t)]
        # What other waits and idle steps end with is certain for the steps behind them, so nothing more is shown.
        return [job.asked] if all(value <= self.ceiling(h, t) for t, value in job.asked) else []

    def show(self, shown, pairs):
        """What is shown of each chain where these pairs are reached too."""
        for t, value in pairs:
            e = self.plan.awaited_signal(t, value)
            if e is not None:
                shown = {other: max(least, self.carried(e, other)) for other, least in shown.items()}
        return shown

    # All answers.

    def fit(self, answers):
        """Whether these may be the first answers of one run.

        What answers show raises the low ends of windows, so of the choices those that show least are kept. Of these
        only what later answers ask for is kept. A chain that each later demand bounds by itself is held below its bound
        at once, whatever else is shown of it.
        """
        demands = [self.demands(h, answer) for h, answer in zip(self.asked, answers)]
        if None in demands:
            return False
        bounds, lists, listed = look_ahead(demands)
        shown = [{t: self.plan.initial[t] for t in {*bounds[0], *listed[0]}}]
        for place, (h, answer) in enumerate(zip(self.asked, answers)):
            bound, is_listed = bounds[place + 1], listed[place + 1]
            fitting = [each for each in shown
                       if all(any(each[t] < value for t, value in pairs) for pairs in lists[place])]
            after = [self.show(each, pairs) for each in fitting for pairs in self.choices(h, answer)]
            shown = least([{t: value if t in is_listed else 0 for t, value in each.items()
                            if t in bound or t in is_listed}
                           for each in after if all(each[t] < value for t, value in bound.items())])
            if not shown:
                return False
        return True

    def first_misfit(self, answers):
        """The place of the first answer that no run gives after those before it, or None."""
        if self.fit(answers):
            return None
        fitting, wrong = 0, len(answers)
        while wrong - fitting > 1:
            half = (fitting + wrong) // 2
            if self.fit(answers[:half]):
                fitting = half
            else:
                wrong = half
        return fitting

    def possible(self, answers):
        """The answers that some run gives after these."""
        h = self.asked[len(answers)]
        job = self.plan.jobs[h]
        if job.kind != 'host read':
            return [answer for answer in ['ok', NEGATIVE.get(job.kind)]
                    if answer is not None and self.fit(answers + [answer])]
        [(t, _)] = job.asked
        made = [answer for answer in self.known(t) if self.demands(h, answer) is not None]
        # the low end alone depends on earlier answers
        low, high = 0, len(made)
        while low < high:
            half = (low + high) // 2
            if self.fit(answers + [made[half]]):
                high = half
            else:
                low = half + 1
        return made[low:]

    # The answers of the slow run, where each job is done whole at once.

    def slow_answers(self):
        numbers, answers = list(self.plan.initial), {}
        for j in self.order.slow:
            job = self.plan.jobs[j]
            if job.is_asked:
                answers[j] = job.answer([numbers[t] for t, _ in job.asked])
            for e in job.signals:
                op = self.plan.ops[e]
                numbers[op.chain] = op.value
        return answers


def look_ahead(demands):
    """What the demands from each place on ask for.

    The bounds of the chains that a list bounds alone; at each place the lists of several pairs that the bounds don't
    settle; the chains in such lists from there on.
    """
    bounds, lists, listed = [{}], [], [frozenset()]
    for asked in reversed(demands):
        bound = dict(bounds[-1])
        for pairs in asked:
            if len(pairs) == 1:
                [(t, value)] = pairs
                bound[t] = min(value, bound.get(t, value))
        open_lists = [pairs for pairs in asked
                      if len(pairs) > 1 and not any(t in bound and bound[t] <= value for t, value in pairs)]
        bounds.append(bound)
        lists.append(open_lists)
        listed.append(listed[-1] | {t for pairs in open_lists for t, _ in pairs})
    return bounds[::-1], lists[::-1], listed[::-1]


def least(choices):
    """The choices that show least. What fits behind one that shows more fits behind them too."""
    each_once = {tuple(each.values()): each for each in choices}
    return [each for values, each in each_once.items()
            if not any(other != values and all(a <= b for a, b in zip(other, values)) for other in each_once)]
