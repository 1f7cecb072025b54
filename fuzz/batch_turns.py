"""The turns of those who move and run batches: a part of the second reading of docs/TURNS.md."""
from order import END
from scene import BLOCKED, ENDED
from waiting import Waiter


class Submitter:
    """Moves the batches of a queue to the device: their waits are pending, their signals have points and are bound."""

    def __init__(self, scene, queue):
        self.scene = scene
        self.batches = [j for j, job in enumerate(scene.plan.jobs) if job.queue == queue]
        # How many of them are bound whole: they come to it in their order.
        self.done = 0

    def turn(self):
        scene = self.scene
        while self.done < len(self.batches) and scene.is_bound_whole(self.batches[self.done]):
            self.done += 1
        if self.done == len(self.batches):
            return ENDED
        j = self.batches[self.done]
        job = scene.plan.jobs[j]
        if j not in scene.submitted:
            return BLOCKED
        if j not in scene.released and not self.is_pending(job):
            return BLOCKED
        for e in job.signals:
            if e not in scene.point:
                return scene.collect(scene.plan.ops[e].chain) or scene.take(e)
        if j not in scene.released:
            return scene.release(j)
        e = next(e for e in job.signals if e not in scene.bound)
        return BLOCKED if scene.unbound_before(e) else scene.bind(e)

    def is_pending(self, job):
        """Whether all that a batch waits for can be found."""
        awaited = [self.scene.plan.awaited_signal(t, value) for _, t, value in job.needs]
        return all(e is None or e in self.scene.bound for e in awaited)


class Ring:
    """Runs the released batches of a queue."""

    def __init__(self, scene, queue):
        self.scene = scene
        self.batches = [j for j, job in enumerate(scene.plan.jobs) if job.queue == queue]
        self.waiter = Waiter(scene, queue)
        self.done = 0

    def turn(self):
        scene = self.scene
        while self.done < len(self.batches) and self.batches[self.done] in scene.finished:
            self.done += 1
        if self.done == len(self.batches):
            return ENDED
        j = self.batches[self.done]
        job = scene.plan.jobs[j]
        if j not in scene.released:
            return BLOCKED
        if j not in scene.started:
            return self.waiter.wait(j) or scene.start(j)
        applied = scene.applied[j]
        if applied < len(job.commands):
            return self.waiter.wait_for_all(j, applied + 1) or scene.apply(j)
        text = self.waiter.wait_for_all(j, END)
        if text:
            return text
        for e in job.signals:
            if e not in scene.made:
                return scene.signal(e) if e in scene.bound else BLOCKED
        self.waiter.forget()
        return scene.finish(j)
