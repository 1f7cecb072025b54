"""What comes before what, found where it is asked, by walks from one job: a large script's order isn't made whole."""
from order import slow_run


class Paths:
    """The slow run of a plan, and the paths between its jobs. A path leads through jobs that the slow run reaches."""

    def __init__(self, plan):
        self.plan = plan
        self.slow, self.stuck = slow_run(plan)
        self.place = {j: number for number, j in enumerate(self.slow)}
        self.known_sooner, self.known_before, self.known_after, self.later = {}, {}, {}, None

    def sooner(self, j):
        """The jobs with a link to one, as far as the slow run has them before it."""
        if j not in self.known_sooner:
            plan, job = self.plan, self.plan.jobs[j]
            found = {job.previous, job.host_before, *job.idle_after}
            if not job.any:
                signals = [plan.awaited_signal(t, value) for _, t, value in job.needs]
                found.update(plan.ops[e].job for e in signals if e is not None)
            self.known_sooner[j] = [i for i in found if self.place.get(i, len(self.slow)) < self.place[j]]
        return self.known_sooner[j]

    def before(self, j):
        """All jobs before one."""
        if j not in self.known_before:
            self.known_before[j] = walked(j, self.sooner) if j in self.place else set()
        return self.known_before[j]

    def after(self, i):
        """All jobs behind one."""
        if self.later is None:
            self.later = {}
            for j in self.slow:
                for sooner in self.sooner(j):
                    self.later.setdefault(sooner, []).append(j)
        if i not in self.known_after:
            self.known_after[i] = walked(i, lambda j: self.later.get(j, ()))
        return self.known_after[i]


def walked(start, links):
    """All jobs to which links lead from one."""
    found, left = set(), [start]
    while left:
        for j in links(left.pop()):
            if j not in found:
                found.add(j)
                left.append(j)
    return found
