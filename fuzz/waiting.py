"""How an actor waits for the needs of a job, by references to points: a part of the second reading of docs/TURNS.md."""
from scene import BLOCKED


class Waiter:
    """What an actor has found of the needs of its present job. Its references stand in the scene."""

    def __init__(self, scene, actor):
        self.scene, self.actor = scene, actor
        self.forget()

    def forget(self):
        """The next job begins."""
        # The needs that are met, and those whose signal was seen and whose reference wasn't given back yet.
        self.met, self.seen = set(), set()
        # For a wait for any of several needs: whether one was found reached.
        self.over = False

    def held(self):
        return self.scene.held.get(self.actor, {})

    def wait(self, j):
        """The text of a turn that still waits or gives references back, or nothing where the job can start."""
        return self.wait_for_any(j) if self.scene.plan.jobs[j].any else self.wait_for_all(j, 1)

    def wait_for_all(self, j, most):
        """The same of the needs that hold back the command with this number, or one before it."""
        for number, t, value in self.scene.plan.jobs[j].needs_from(1, most):
            if number not in self.met:
                text = self.wait_for(number, t, value)
                if text:
                    return text
        return None

    def wait_for(self, number, t, value):
        """One need that isn't met; nothing where it is found past."""
        if number in self.seen:
            self.seen.remove(number)
            self.met.add(number)
            return self.scene.unrefer(self.actor, number)
        if number in self.held():
            return self.look(number) or BLOCKED
        if value <= self.scene.past_value(t):
            self.met.add(number)
            return None
        e = self.scene.plan.resolver(t, value)
        return self.scene.refer(self.actor, number, e) if e in self.scene.bound else BLOCKED

    def wait_for_any(self, j):
        if not self.over:
            text = self.search(j)
            if text:
                return text
            self.over = True
        for number in sorted(self.held()):
            return self.scene.unrefer(self.actor, number)
        return None

    def search(self, j):
        """All needs in order, up to one that moves; nothing where one is found past."""
        for number, (_, t, value) in enumerate(self.scene.plan.jobs[j].needs):
            if number in self.held():
                text = self.look(number)
                if text:
                    self.over = True
                    return text
            elif value <= self.scene.past_value(t):
                return None
            else:
                e = self.scene.plan.resolver(t, value)
                if e is not None and e in self.scene.bound:
                    return self.scene.refer(self.actor, number, e)
        return BLOCKED

    def look(self, number):
        """A look that sees the signal, or nothing."""
        _, e = self.held()[number]
        if e not in self.scene.made:
            return None
        self.seen.add(number)
        return self.scene.look(self.actor, number)
