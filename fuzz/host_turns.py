"""The turns of the host: a part of the second reading of docs/TURNS.md.

The host serves the deferred queues first, in order, where they have submitted batches to move. Then it goes through the
jobs in the order of the script. It submits each batch, moves those of immediate queues, and does each of its own steps
whole before it goes on.
"""
from batch_turns import Submitter
from scene import BLOCKED, ENDED
from waiting import Waiter


class Host:
    def __init__(self, scene):
        self.scene = scene
        self.waiter = Waiter(scene, 'host')
        self.submits = [Submitter(scene, queue) for queue in range(len(scene.plan.modes))]
        self.deferred = [queue for queue, mode in enumerate(scene.plan.modes) if mode == b'deferred']
        self.served = [j for j, job in enumerate(scene.plan.jobs) if job.queue in self.deferred]
        # The numbers of the chains that its present step asks for, as far as they were looked at.
        self.seen = []
        self.answers = {}
        # How many of all jobs it has no more to do for: they come to it in their order.
        self.done = 0

    def turn(self):
        for queue in self.deferred:
            text = self.submits[queue].turn()
            if text not in (BLOCKED, ENDED):
                return text
        text = self.own_turn()
        # At its end the host isn't done as long as a deferred queue has batches that aren't bound whole.
        return BLOCKED if text == ENDED and any(not self.scene.is_bound_whole(j) for j in self.served) else text

    def own_turn(self):
        scene = self.scene
        for j in range(self.done, len(scene.plan.jobs)):
            job = scene.plan.jobs[j]
            if job.queue is None:
                if j not in scene.finished:
                    return self.step(j, job)
            elif j not in scene.submitted:
                return scene.submit(j)
            elif scene.plan.modes[job.queue] == b'immediate' and not scene.is_bound_whole(j):
                return self.submits[job.queue].turn()
            self.done = j + 1
        return ENDED

    def step(self, j, job):
        if j not in self.scene.started:
            return self.waiter.wait(j) or self.wait_idle(job) or self.scene.start(j)
        for e in job.signals:
            if e not in self.scene.made:
                return self.signal(e)
        if job.is_asked and j not in self.answers:
            return self.look_at_all(job) or self.answer(j, job)
        self.waiter.forget()
        self.seen = []
        return self.scene.finish(j)

    def wait_idle(self, job):
        return BLOCKED if any(i not in self.scene.finished for i in job.idle_after) else None

    def signal(self, e):
        """A signal of the host goes through a point too."""
        scene = self.scene
        if e not in scene.point:
            return scene.collect(scene.plan.ops[e].chain) or scene.take(e)
        if e not in scene.bound:
            return BLOCKED if scene.unbound_before(e) else scene.bind(e)
        return scene.signal(e)

    def look_at_all(self, job):
        """Collects each chain that is asked for, in order, and keeps its number; nothing where all are looked at."""
        for t, _ in job.asked[len(self.seen):]:
            text = self.scene.collect(t)
            if text:
                return text
            self.seen.append(self.scene.past_value(t))
        return None

    def answer(self, j, job):
        self.answers[j] = job.answer(self.seen)
        return f'answer {self.scene.line(j)} {self.answers[j]}'
