"""A second reading of docs/TURNS.md: what each turn of a schedule comes to, and the text of the trace.

It shares nothing with the program but the pages. The actors are in batch_turns.py and host_turns.py, what happened and
the events in scene.py. A turn is the text of its event, `-` where it was blocked, or `.` where its actor has ended.
"""
from batch_turns import Ring, Submitter
from host_turns import Host
from scene import BLOCKED, ENDED, Scene


class Game:
    """All actors over one scene."""

    def __init__(self, plan):
        self.plan = plan
        self.scene = Scene(plan)
        self.host = Host(self.scene)
        self.submits = [Submitter(self.scene, queue) for queue in range(len(plan.modes))]
        self.rings = [Ring(self.scene, queue) for queue in range(len(plan.modes))]

    def turn(self, who, queue):
        """A turn of an actor: `host`, or a letter with a queue."""
        actor = self.host if who == 'host' else self.submits[queue] if who == 'S' else self.rings[queue]
        return actor.turn()

    def left(self):
        return len(self.plan.jobs) - len(self.scene.finished)

    def trace(self, turns, names):
        """The text of these turns, up to what a finished script leaves. Queues have these names."""
        text = [self.line(number, who, queue, names) for number, (who, queue) in enumerate(turns, 1)]
        return self.ended(text)

    def rounds(self, names):
        """The text of the turns that move where each actor has a turn a round, until all is finished; their number."""
        queues = range(len(self.plan.modes))
        round_of_turns = [('host', None), *(('S', queue) for queue in queues if self.plan.modes[queue] == b'threaded'),
                          *(('R', queue) for queue in queues)]
        text, number, rounds = [], 0, 0
        while self.left():
            rounds += 1
            assert rounds <= self.acts(), 'more rounds than acts'
            for who, queue in round_of_turns:
                number += 1
                line = self.line(number, who, queue, names)
                if line.split()[2] not in (BLOCKED, ENDED):
                    text.append(line)
        return self.ended(text), rounds

    def acts(self):
        """How many events a run has at most: in each round some actor moves."""
        jobs = self.plan.jobs
        return 4 * len(jobs) + sum(len(job.commands) + 3 * len(job.needs) for job in jobs) + 5 * len(self.plan.ops)

    def line(self, number, who, queue, names):
        actor = who if who == 'host' else f'{who}:{names[queue]}'
        return f'{number} {actor} {self.turn(who, queue)}\n'

    def ended(self, text):
        text.append(f'unfinished {self.left()}\n' if self.left() else 'finished\n')
        return ''.join(text).encode()
