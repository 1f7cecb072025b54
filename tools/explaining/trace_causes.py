"""Why an event may not come: the conditions of docs/TURNS.md that don't hold, one by one; and what may come instead."""


class Causes:
    """What stands in the way of an event, in sentences. `came` has the line of the trace at which an event came."""

    def __init__(self, traced, ledger, came):
        self.page, self.plan, self.queues = traced.page, traced.plan, traced.names
        self.ledger, self.came = ledger, came
        # Lines that the sentences speak of.
        self.lines = []

    def of(self, event):
        """The sentences of an event, the first one being the main cause."""
        return [text for text in getattr(self, event[0])(*event[1:]) if text]

    # What things are called.

    def job(self, j):
        job = self.plan.jobs[j]
        return f'the batch at line {self.page.at(job.line)}' if job.queue is not None else \
            f'`{job.kind}` of line {self.page.at(job.line)}'

    def op(self, e):
        op = self.plan.ops[e]
        return f'{self.plan.names[op.chain]} {op.value}'

    def since(self, *event):
        line = self.came.get(event)
        if line is None:
            return ''
        self.lines.append(line)
        return f', at line {line}'

    # Jobs.

    def submit(self, j):
        ledger = self.ledger
        if ledger.is_step(j):
            yield f'{self.job(j)} is no batch, so nobody submits it'
        if j in ledger.submitted:
            yield f'{self.job(j)} is submitted already{self.since("submit", j)}'
        for i in range(j):
            if ledger.is_step(i) and i not in ledger.finished:
                yield f'{self.job(i)} comes before it, and isn\'t finished'
                return
            if not ledger.is_step(i) and i not in ledger.submitted:
                yield f'{self.job(i)} comes before it, and isn\'t submitted'
                return

    def handed_on(self, j):
        """What keeps a batch from being handed on."""
        ledger = self.ledger
        if ledger.is_step(j):
            yield f'{self.job(j)} is no batch, so nobody hands it on'
        elif j not in ledger.submitted:
            yield f'{self.job(j)} isn\'t submitted yet'
        if j in ledger.released:
            yield f'{self.job(j)} is released already{self.since("release", j)}'
        for i in ledger.earlier_in_queue(j):
            if i not in ledger.released:
                yield f'{self.job(i)}, before it in its queue, isn\'t released'
                break
        for line, t, value in self.plan.jobs[j].needs:
            e = self.plan.awaited_signal(t, value)
            if e is not None and e not in ledger.bound:
                yield (f'its wait at line {self.page.at(line)} is for {self.op(e)}, which isn\'t pending: the work would '
                       'start too early')

    def release(self, j):
        yield from self.handed_on(j)
        for e in self.plan.jobs[j].signals:
            if e not in self.ledger.point_of:
                yield f'its signal {self.op(e)} has no point'

    def start(self, j):
        ledger, job = self.ledger, self.plan.jobs[j]
        if j in ledger.started:
            yield f'{self.job(j)} is started already{self.since("start", j)}'
        if job.previous is not None and job.previous not in ledger.finished:
            yield f'{self.job(job.previous)} comes before it, and isn\'t finished'
        yield from self.unreached(j, lambda place: place == 1)
        for i in job.idle_after:
            if i not in ledger.finished:
                yield f'{self.job(i)} isn\'t finished, so the device isn\'t idle'
        if ledger.is_step(j):
            for i in range(j):
                if not ledger.is_step(i) and i not in ledger.submitted:
                    yield f'{self.job(i)} comes before it, and isn\'t submitted'
                    break
        elif j not in ledger.released:
            yield f'{self.job(j)} isn\'t released'

    def unreached(self, j, test):
        """The waits of a job that aren't reached."""
        ledger = self.ledger
        if ledger.are_reached(j, test):
            return
        for t, value in ledger.needs(j, test):
            if ledger.payload[t] < value:
                yield f'it waits for {self.plan.names[t]} {value}, and that is at {ledger.payload[t]}'

    def running(self, j):
        if j not in self.ledger.started:
            yield f'{self.job(j)} isn\'t started'
        if j in self.ledger.finished:
            yield f'{self.job(j)} is finished{self.since("finish", j)}'

    def apply(self, j, place):
        yield from self.running(j)
        done, commands = self.ledger.applied[j], self.plan.jobs[j].commands
        if place != done:
            yield (f'the next command is that of line {self.page.at(commands[done][0])}' if done < len(commands) else
                   'all commands of this batch are done')
        yield from self.unreached(j, lambda held: held <= place + 1)

    def left_of(self, j):
        """Commands that are left."""
        done, commands = self.ledger.applied[j], self.plan.jobs[j].commands
        if done < len(commands):
            yield f'the command of line {self.page.at(commands[done][0])} isn\'t done'

    def signal(self, e):
        ledger, j = self.ledger, self.plan.ops[e].job
        yield from self.running(j)
        yield from self.left_of(j)
        left = [other for other in self.plan.jobs[j].signals if other not in ledger.made]
        if e in ledger.made:
            yield f'{self.op(e)} is signaled already{self.since("signal", e)}'
        elif left[0] != e:
            yield f'{self.op(left[0])} comes first'
        if e not in ledger.bound:
            yield f'{self.op(e)} isn\'t bound to its point'
        yield from self.unreached(j, lambda place: True)

    def finish(self, j):
        ledger, job = self.ledger, self.plan.jobs[j]
        yield from self.running(j)
        yield from self.left_of(j)
        for e in job.signals:
            if e not in ledger.made:
                yield f'its signal {self.op(e)} isn\'t made'
        yield from self.unreached(j, lambda place: True)
        if job.is_asked and j not in ledger.answers:
            yield 'it has no answer yet'
        actor = ('host', None) if job.queue is None else ('R', job.queue)
        for other, point, e in ledger.held:
            if other == actor:
                yield f'it holds a reference to point {point} for {self.op(e)}{self.since("refer", other)}'

    def answer(self, j, answer):
        ledger, job = self.ledger, self.plan.jobs[j]
        if j not in ledger.started:
            yield f'{self.job(j)} isn\'t started'
        elif not job.is_asked:
            yield f'{self.job(j)} has no answer'
        elif j in ledger.answers:
            yield f'{self.job(j)} is answered already{self.since("answer", j)}'
        else:
            able = answers(ledger, j)
            yield ('no state since it began gives that answer: ' + ' or '.join(f'`{text}`' for text in able[:4])
                   + ' may stand here' if able else 'nothing can be answered yet')

    # Points.

    def take(self, e, q, fresh):
        ledger, op = self.ledger, self.plan.ops[e]
        if e in ledger.point_of:
            yield f'{self.op(e)} has point {ledger.point_of[e]} already{self.since("take", e)}'
        if ledger.is_step(op.job):
            if op.job not in ledger.started:
                yield f'{self.job(op.job)} isn\'t started'
        else:
            yield from self.handed_on(op.job)
        name, free = self.plan.names[op.chain], ledger.free[op.chain]
        if fresh and free:
            yield f'point {free[0]} of {name} is free, and is used first'
        elif fresh and q != ledger.points:
            yield (f'the next fresh point is {ledger.points}: they are counted over the whole run, of all timelines, '
                   'binary semaphores and fences together')
        elif not fresh and not free:
            yield f'no point of {name} is free'
        elif not fresh and free[0] != q:
            yield f'the point of {name} that was freed last is {free[0]}'

    def carries(self, e, q):
        carried = self.ledger.carried.get(q)
        if carried is None:
            yield f'point {q} carries nothing: it was freed, or never taken'
        elif carried != e:
            yield f'point {q} carries {self.op(carried)}: it was given away'

    def bind(self, e, q):
        ledger, j = self.ledger, self.plan.ops[e].job
        yield from self.carries(e, q)
        if e in ledger.bound:
            yield f'{self.op(e)} is bound already{self.since("bind", e)}'
        if j not in (ledger.started if ledger.is_step(j) else ledger.released):
            yield f'{self.job(j)} isn\'t {"started" if ledger.is_step(j) else "released"}'
        for other in ledger.smaller(e):
            if other not in ledger.bound:
                yield f'{self.op(other)} isn\'t bound yet: a value would be passed by'
                break

    def complete(self, e):
        ledger = self.ledger
        if e in ledger.past:
            yield f'{self.op(e)} is completed already{self.since("complete", e)}'
        if e not in ledger.made:
            yield f'{self.op(e)} isn\'t signaled'
        if e not in ledger.bound:
            yield f'{self.op(e)} isn\'t bound'
        for other in ledger.smaller(e):
            if other not in ledger.past:
                yield f'{self.op(other)} is pending before it'
                break

    def free(self, q):
        ledger = self.ledger
        e = ledger.carried.get(q)
        if e is None:
            yield f'point {q} carries nothing: it is free, or was never taken'
        elif e not in ledger.past:
            yield f'its signal {self.op(e)} isn\'t completed'
        for actor, point, other in ledger.held:
            if point == q:
                yield (f'{self.actor(actor)} still watches point {q} for {self.op(other)}{self.since("refer", actor)}: '
                       'the next user\'s signal would be taken for this one')

    def actor(self, actor):
        return 'the host' if actor[0] == 'host' else f'{actor[0]}:{self.queues[actor[1]]}'

    def refer(self, actor, q, e):
        ledger, j = self.ledger, self.ledger.next_job(actor)
        yield from self.carries(e, q)
        if e not in ledger.bound:
            yield f'{self.op(e)} isn\'t bound'
        if j is None:
            yield 'it has no job left that could wait'
        elif not ledger.is_step(j) and j not in ledger.released:
            yield f'its next one, {self.job(j)}, isn\'t released'
        elif e not in [self.plan.resolver(t, value) for t, value in ledger.needs(j)]:
            yield f'no wait of {self.job(j)} is for {self.op(e)}'
        elif e in ledger.referred[j]:
            yield f'it has its reference for {self.op(e)}{self.since("refer", actor)}'
        else:
            yield f'the wait of {self.job(j)} for {self.op(e)} isn\'t looked for now'

    def look(self, actor, q, e):
        ledger, j = self.ledger, self.ledger.next_job(actor)
        if (actor, q, e) not in ledger.held:
            yield f'it holds no reference to point {q} for {self.op(e)}'
        if e not in ledger.made:
            yield f'{self.op(e)} isn\'t signaled: a sync was seen too early, or one of another signal'
        elif j is not None and ledger.looked[j].count(e) >= ledger.referred[j].count(e):
            yield 'it has looked already'

    def unref(self, actor, q, e):
        if (actor, q, e) not in self.ledger.held:
            yield f'it holds no reference to point {q} for {self.op(e)}: it was given back, or never taken'


def answers(ledger, j):
    """The answers that a host line may get."""
    job = ledger.plan.jobs[j]
    if job.kind == 'host read':
        [(t, _)] = job.asked
        values = [ledger.at_start[j][t]] + [ledger.plan.ops[e].value for e in ledger.plan.chains[t] if e in ledger.made]
        tried = [f'value {value}' for value in dict.fromkeys(values)]
    else:
        tried = ['ok', 'timeout', 'not-ready']
    return [answer for answer in tried if ledger.may_answer(j, answer)]


def next_events(traced, ledger, actor):
    """What an actor may do next, as it is written, the events of jobs first."""
    plan, found = traced.plan, []
    for event in candidates(plan, ledger, actor):
        if traced.reader.may_make(actor, event) and getattr(ledger, f'may_{event[0]}')(*event[1:]):
            found.append(written(plan, event))
    return list(dict.fromkeys(found))


def candidates(plan, ledger, actor):
    """Events that an actor might make: of the first jobs that aren't done, and of the points that are out."""
    jobs = [j for j, job in enumerate(plan.jobs) if actor[0] == 'host' or job.queue == actor[1]]
    jobs = [j for j in jobs if j not in ledger.finished][:4]
    for j in jobs:
        job = plan.jobs[j]
        yield 'submit', j
        yield 'start', j
        if ledger.applied[j] < len(job.commands):
            yield 'apply', j, ledger.applied[j]
        for e in job.signals:
            free = ledger.free[plan.ops[e].chain]
            yield 'take', e, free[0] if free else ledger.points, not free
        yield 'release', j
        for e in job.signals:
            if e in ledger.point_of:
                yield 'bind', e, ledger.point_of[e]
            yield 'signal', e
        if job.is_asked and j in ledger.started:
            yield from (('answer', j, answer) for answer in answers(ledger, j))
        yield 'finish', j
    yield from (('look', actor, q, e) for who, q, e in ledger.held if who == actor)
    yield from (('unref', actor, q, e) for who, q, e in ledger.held if who == actor)
    j = ledger.next_job(actor)
    if j is not None:
        for t, value in ledger.needs(j):
            e = plan.resolver(t, value)
            if e in ledger.point_of:
                yield 'refer', actor, ledger.point_of[e], e
    yield from (('complete', e) for e in sorted(ledger.bound - ledger.past))
    yield from (('free', q) for q in sorted(ledger.waiting))


def written(plan, event):
    """An event as a trace has it."""
    verb, *parts = event
    if verb in ('submit', 'release', 'start', 'finish'):
        return f'{verb} {plan.jobs[parts[0]].line}'
    if verb == 'apply':
        return f'apply {plan.jobs[parts[0]].commands[parts[1]][0]}'
    if verb == 'answer':
        return f'answer {plan.jobs[parts[0]].line} {parts[1]}'
    if verb == 'free':
        return f'free {parts[0]}'
    e = parts[0] if verb not in ('refer', 'look', 'unref') else parts[2]
    signal = f'{plan.names[plan.ops[e].chain]} {plan.ops[e].value}'
    if verb == 'take':
        return f'take {signal} {"fresh" if parts[2] else "reused"} {parts[1]}'
    if verb == 'bind':
        return f'bind {signal} {parts[1]}'
    return f'{verb} {parts[1]} {signal}' if verb in ('refer', 'look', 'unref') else f'{verb} {signal}'
