"""Of a schedule that was played: why a turn is `-`, and who is stuck where batches and host lines are left."""
import copy

from lowering import Plan
from order import END
from reading import read_whole
from scene import BLOCKED, ENDED
from turns import Game

# So many turns, times batches and host lines, are played; so many reasons are told, each with so many turns.
MOST_STEPS, MOST_REASONS, MOST_TURNS = 40_000_000, 12, 6


class Told:
    """Turns of one actor that were blocked for one reason: their numbers, the line of the schedule, the reason."""

    def __init__(self, actor, line, reason):
        self.actor, self.line, self.reason, self.turns = actor, line, reason, []

    def text(self):
        turns = ', '.join(str(turn) for turn in self.turns[:MOST_TURNS]) + (' ..' if len(self.turns) > MOST_TURNS else '')
        return f'turn{"s" * (len(self.turns) > 1)} {turns} of {self.actor}: `-`: {self.reason}'


class Played:
    """A lawful script whose schedule is played turn by turn."""

    def __init__(self, data):
        self.reader = read_whole(data, '--replay')
        self.plan = Plan(self.reader)
        self.names = {queue: name.decode() for name, (kind, queue) in self.reader.names.items() if kind == 'queue'}
        self.game = Game(self.plan)
        self.scene = self.game.scene
        self.told, self.left_out = [], 0

    def is_short(self):
        return len(self.reader.turns_given) * max(1, len(self.plan.jobs)) <= MOST_STEPS

    def play(self, lines):
        """Plays all turns. `lines` has the line of each turn in the script."""
        found = {}
        for number, (line, (who, queue)) in enumerate(zip(lines, self.reader.turns_given), 1):
            if self.game.turn(who, queue) == BLOCKED:
                actor, reason = self.actor(who, queue), self.reason(who, queue)
                if (actor, reason) not in found:
                    if len(found) == MOST_REASONS:
                        self.left_out += 1
                        continue
                    found[actor, reason] = Told(actor, line, reason)
                    self.told.append(found[actor, reason])
                found[actor, reason].turns.append(number)

    def actor(self, who, queue):
        return who if who == 'host' else f'{who}:{self.names[queue]}'

    def stuck(self):
        """For each actor that isn't done where something is left: what it would do next, or why it can't."""
        left = self.game.left()
        if not left:
            return []
        late = [self.job(j) for j in range(len(self.plan.jobs)) if j not in self.scene.finished]
        rows = [f'unfinished {left}: the schedule ends before these are done: ' + ', '.join(late[:MOST_TURNS])
                + ' ..' * (left > MOST_TURNS)]
        queues = range(len(self.plan.modes))
        actors = [('host', None), *(('S', queue) for queue in queues if self.plan.modes[queue] == b'threaded'),
                  *(('R', queue) for queue in queues)]
        for who, queue in actors:
            # the turn is taken in a copy, as it changes what the others can do
            text = copy.deepcopy(self.game, {id(self.plan): self.plan}).turn(who, queue)
            if text == BLOCKED:
                rows.append(f'{self.actor(who, queue)} is stuck: {self.reason(who, queue)}')
            elif text != ENDED:
                rows.append(f'{self.actor(who, queue)} would go on with `{text}`')
        return rows

    # Why an actor's turn is blocked, where it is.

    def job(self, j):
        job = self.plan.jobs[j]
        return f'the batch of {self.names[job.queue]} at line {job.line}' if job.queue is not None else \
            f'`{job.kind}` of line {job.line}'

    def op(self, e):
        op = self.plan.ops[e]
        return f'{self.plan.names[op.chain]} {op.value}'

    def reason(self, who, queue):
        if who == 'S':
            return self.of_submitter(queue)
        return self.of_ring(queue) if who == 'R' else self.of_host()

    def of_submitter(self, queue):
        scene = self.scene
        j = next((j for j, job in enumerate(self.plan.jobs) if job.queue == queue and not scene.is_bound_whole(j)), None)
        if j is None:
            return None
        job = self.plan.jobs[j]
        if j not in scene.submitted:
            return f'the host hasn\'t submitted {self.job(j)} yet'
        if j not in scene.released:
            for line, t, value in job.needs:
                e = self.plan.awaited_signal(t, value)
                if e is not None and e not in scene.bound:
                    return f'{self.job(j)} waits at line {line} for {self.op(e)}, which isn\'t pending: {self.signaler(e)}'
            return None
        e = next(e for e in job.signals if e not in scene.bound)
        return f'a smaller value than {self.op(e)} isn\'t pending yet' if scene.unbound_before(e) else None

    def of_ring(self, queue):
        scene = self.scene
        j = next((j for j, job in enumerate(self.plan.jobs) if job.queue == queue and j not in scene.finished), None)
        if j is None:
            return None
        job = self.plan.jobs[j]
        if j not in scene.released:
            return f'{self.job(j)} isn\'t handed on yet'
        if j not in scene.started:
            return self.waiting(j, 1)
        if scene.applied[j] < len(job.commands):
            return self.waiting(j, scene.applied[j] + 1)
        blocked = self.waiting(j, END)
        if blocked:
            return blocked
        e = next((e for e in job.signals if e not in scene.made), None)
        return None if e is None or e in scene.bound else f'its signal {self.op(e)} isn\'t bound to its point yet'

    def of_host(self):
        scene, plan = self.scene, self.plan
        for j, job in enumerate(plan.jobs):
            if job.queue is None and j not in scene.finished:
                return self.of_step(j, job)
            if job.queue is not None and j not in scene.submitted:
                return None
            if job.queue is not None and plan.modes[job.queue] == b'immediate' and not scene.is_bound_whole(j):
                return self.of_submitter(job.queue)
        return next((reason for queue in self.game.host.deferred for reason in [self.of_submitter(queue)] if reason), None)

    def of_step(self, j, job):
        scene = self.scene
        if j not in scene.started:
            blocked = self.waiting(j, 1)
            late = next((i for i in job.idle_after if i not in scene.finished), None)
            return blocked or (None if late is None else f'{self.job(j)} waits until {self.job(late)} is finished')
        e = next((e for e in job.signals if e not in scene.made), None)
        if e is not None and e in scene.point and e not in scene.bound and scene.unbound_before(e):
            return f'a smaller value than {self.op(e)} isn\'t pending yet'
        return None

    def waiting(self, j, most):
        """Why a job can't go on to a command: a wait that isn't met, and what it is for."""
        scene, plan, job = self.scene, self.plan, self.plan.jobs[j]
        reasons = []
        for _, t, value in job.needs_from(1, most):
            e = plan.resolver(t, value)
            line = next(line for line, other, wanted in job.needs if (other, wanted) == (t, value))
            if value <= plan.initial[t] or e in scene.made:
                if job.any:
                    return None
            elif e is not None:
                how = 'isn\'t pending' if e not in scene.bound else 'is pending, and not signaled'
                reasons.append(f'{self.job(j)} waits at line {line} for {self.op(e)}, which {how}: {self.signaler(e)}')
        return reasons[0] if reasons else None

    def signaler(self, e):
        return f'{self.job(self.plan.ops[e].job)} signals it'


def lines_of_turns(data):
    """The line of each turn of a schedule."""
    reader_lines, is_schedule = [], False
    for number, line in enumerate(data.split(b'\n'), 1):
        words = line.split(b'#')[0].split()
        if is_schedule and words:
            count = int(words[1], 0) if len(words) == 2 else 1
            reader_lines += [number] * count
        is_schedule = is_schedule or words == [b'schedule']
    return reader_lines


def reasons_of(data):
    """What is to be told of a lawful script's schedule, as pairs of a line of it and a text."""
    played = Played(data)
    if not played.is_short():
        return [(1, 'the schedule is too long for its blocked turns to be told')]
    lines = lines_of_turns(data)
    played.play(lines)
    rows = [(told.line, told.text()) for told in played.told]
    if played.left_out:
        rows.append((lines[-1], f'{played.left_out} blocked turns more, for other reasons'))
    return rows + [((lines or [1])[-1], text) for text in played.stuck()]
