"""A second reading of docs/AUDIT.md: whether a given trace can be read, and which of its lines is wrong.

`audit(data)` gives (status, text) for `--audit`. It shares nothing with the program but the pages; of the other files
here it takes the reading of scripts and the text that a finished script leaves. Guards are written out one by one, in
the words of the table of events, over sets and lists that are searched.
"""
import re

LIMIT = 4_194_304
DECIMAL = re.compile(rb'[0-9]{1,20}')
HEXADECIMAL = re.compile(rb'0x[0-9a-fA-F]{1,16}')

# What an event changes, where it has another name than the event: `free` is the list of free points.
CHANGES = {'free': 'free_point'}


class Faulty(Exception):
    """A trace that can't be read: the number of its first faulty line."""


class Broken(Exception):
    """A trace that isn't lawful: the number of its first line that is wrong."""


def lines_of(data):
    """The lines, each as its words."""
    lines = data.split(b'\n')
    if lines[-1] == b'':
        lines.pop()
    lines = [line[:-1] if line.endswith(b'\r') else line for line in lines]
    return [[word for word in re.split(rb'[ \t]', line.split(b'#')[0]) if word] for line in lines]


def cut(data):
    """The bytes before the line `trace`, those after it, and the number of the first line of these; or None."""
    place = 0
    for number, line in enumerate(data.split(b'\n'), 1):
        if lines_of(line) == [[b'trace']]:
            return data[:place], data[place + len(line) + 1:], number + 1
        place += len(line) + 1
    return None


def numeral(word):
    if DECIMAL.fullmatch(word):
        value = int(word)
    elif HEXADECIMAL.fullmatch(word):
        value = int(word, 16)
    else:
        raise ValueError
    if value >= 2**64:
        raise ValueError
    return value


def small(word):
    if numeral(word) >= 2**32:
        raise ValueError
    return numeral(word)


class TraceReader:
    """What the lines of a trace say: events as tuples, the host as ('host', None), a queue's actors by their letters."""

    def __init__(self, script):
        self.plan = plan = script.plan
        self.queues = {name.encode(): queue for queue, name in script.queue_names().items()}
        self.jobs = {job.line: j for j, job in enumerate(plan.jobs)}
        self.commands = {command[0]: (j, place) for j, job in enumerate(plan.jobs)
                         for place, command in enumerate(job.commands)}
        self.ops = {(plan.names[op.chain].encode(), op.value): e for e, op in enumerate(plan.ops)}

    def read(self, data, first):
        """The events with their lines, the end and its line, and the lines after it."""
        events, last, lines = [], -1, lines_of(data)
        for number, words in enumerate(lines, first):
            if not words:
                continue
            end = self.end(words)
            if end is not None:
                rest = [(line, b' '.join(more)) for line, more in enumerate(lines[number + 1 - first:], number + 1) if more]
                return events, (number, end), rest
            try:
                turn, actor = numeral(words[0]), self.actor(words[1])
                event = self.outcome(actor, words[2:])
            except (ValueError, KeyError, IndexError):
                raise Faulty(number) from None
            if turn <= last:
                raise Faulty(number)
            last = turn
            if event:
                events.append((number, event))
        raise Faulty(first + len(lines))

    def end(self, words):
        """How many jobs the last line of the turns says are left, or None of another line: 'finished' or a number."""
        if words == [b'finished']:
            return 'finished'
        if len(words) == 2 and words[0] == b'unfinished':
            try:
                return small(words[1])
            except ValueError:
                return None
        return None

    def actor(self, word):
        if word == b'host':
            return 'host', None
        if word[:2] not in (b'S:', b'R:'):
            raise ValueError
        return word[:1].decode(), self.queues[word[2:]]

    def outcome(self, actor, words):
        """An event, or None."""
        if words in ([b'-'], [b'.']):
            return None
        verb, *words = words
        event = self.event(verb.decode('latin-1'), words, actor)
        if not self.may_make(actor, event):
            raise ValueError
        return event

    def event(self, verb, words, actor):
        if verb in ('submit', 'release', 'start', 'finish'):
            [line] = words
            return verb, self.jobs[numeral(line)]
        if verb == 'take':
            name, value, taken, point = words
            if taken not in (b'fresh', b'reused'):
                raise ValueError
            return verb, self.ops[name, numeral(value)], small(point), taken == b'fresh'
        if verb == 'bind':
            name, value, point = words
            return verb, self.ops[name, numeral(value)], small(point)
        if verb in ('refer', 'look', 'unref'):
            point, name, value = words
            return verb, actor, small(point), self.ops[name, numeral(value)]
        if verb in ('complete', 'signal'):
            name, value = words
            return verb, self.ops[name, numeral(value)]
        if verb == 'free':
            [point] = words
            return verb, small(point)
        if verb == 'apply':
            [line] = words
            return verb, *self.commands[numeral(line)]
        if verb == 'answer':
            line, *answer = words
            return verb, self.jobs[numeral(line)], self.answer(answer)
        raise ValueError

    def answer(self, words):
        if len(words) == 1 and words[0] in (b'ok', b'timeout', b'not-ready'):
            return words[0].decode()
        if len(words) == 2 and words[0] == b'value':
            return f'value {numeral(words[1])}'
        raise ValueError

    def job_of(self, event):
        return self.plan.ops[event[1]].job if event[0] in ('take', 'bind', 'signal') else event[1]

    def may_make(self, actor, event):
        verb, letter = event[0], actor[0]
        if verb == 'submit':
            return letter == 'host'
        if verb in ('refer', 'look', 'unref'):
            return letter != 'S'
        if verb in ('complete', 'free'):
            return letter != 'R'
        queue = self.plan.jobs[self.job_of(event)].queue
        if verb in ('take', 'release', 'bind'):
            threaded = queue is not None and self.plan.modes[queue] == b'threaded'
            return actor == (('S', queue) if threaded else ('host', None))
        return actor == (('host', None) if queue is None else ('R', queue))


class Ledger:
    """What has happened, and which event may come next."""

    def __init__(self, plan):
        self.plan = plan
        self.submitted, self.released, self.started, self.finished = set(), set(), set(), set()
        self.applied = [0] * len(plan.jobs)
        self.answers = {}
        self.payload = list(plan.initial)
        # For each started step of the host the payloads at its start.
        self.at_start = {}
        self.points = 0
        self.point_of, self.carried = {}, {}
        self.bound, self.made, self.past, self.waiting = set(), set(), set(), set()
        self.free = [[] for _ in plan.chains]
        self.held = []
        # For each job the signals of its references and of its looks.
        self.referred = [[] for _ in plan.jobs]
        self.looked = [[] for _ in plan.jobs]

    def come(self, event):
        """Whether an event may come; where it may, it comes."""
        verb, *parts = event
        if not getattr(self, f'may_{verb}')(*parts):
            return False
        getattr(self, CHANGES.get(verb, verb))(*parts)
        return True

    # What guards look at.

    def is_step(self, j):
        return self.plan.jobs[j].queue is None

    def earlier_in_queue(self, j):
        return [i for i in range(j) if self.plan.jobs[i].queue == self.plan.jobs[j].queue]

    def needs_are_pending(self, j):
        job = self.plan.jobs[j]
        for _, t, value in job.needs:
            if value > self.plan.initial[t] and self.plan.resolver(t, value) not in self.bound:
                return job.any
        return True

    def needs(self, j, test=lambda place: True):
        """The pairs of a job's needs that hold back a place for which this holds."""
        job = self.plan.jobs[j]
        return [(t, value) for number, (_, t, value) in enumerate(job.needs)
                if test(job.held_from[number] if job.held_from else 1)]

    def are_reached(self, j, test=lambda place: True):
        reached = [self.payload[t] >= value for t, value in self.needs(j, test)]
        return any(reached) if self.plan.jobs[j].any else all(reached)

    def next_job(self, actor):
        queue = actor[1]
        for j, job in enumerate(self.plan.jobs):
            if actor[0] != 'S' and job.queue == queue and j not in self.finished:
                return j
        return None

    def smaller(self, e):
        chain = self.plan.chains[self.plan.ops[e].chain]
        return chain[:chain.index(e)]

    # Jobs.

    def may_submit(self, j):
        return (not self.is_step(j) and j not in self.submitted
                and all(i in (self.finished if self.is_step(i) else self.submitted) for i in range(j)))

    def submit(self, j):
        self.submitted.add(j)

    def may_release(self, j):
        return (not self.is_step(j) and j in self.submitted and j not in self.released
                and all(i in self.released for i in self.earlier_in_queue(j)) and self.needs_are_pending(j)
                and all(e in self.point_of for e in self.plan.jobs[j].signals))

    def release(self, j):
        self.released.add(j)

    def may_start(self, j):
        job = self.plan.jobs[j]
        return (j not in self.started and (job.previous is None or job.previous in self.finished)
                and self.are_reached(j, lambda place: place == 1) and all(i in self.finished for i in job.idle_after)
                and (all(self.is_step(i) or i in self.submitted for i in range(j)) if self.is_step(j)
                     else j in self.released))

    def start(self, j):
        self.started.add(j)
        self.at_start[j] = list(self.payload)

    def may_apply(self, j, place):
        return (j in self.started and j not in self.finished and place == self.applied[j]
                and self.are_reached(j, lambda held: held <= place + 1))

    def apply(self, j, place):
        self.applied[j] += 1

    def may_signal(self, e):
        job = self.plan.ops[e].job
        left = [other for other in self.plan.jobs[job].signals if other not in self.made]
        return (job in self.started and job not in self.finished
                and self.applied[job] == len(self.plan.jobs[job].commands) and left[:1] == [e]
                and self.are_reached(job) and e in self.bound)

    def signal(self, e):
        self.made.add(e)
        self.payload[self.plan.ops[e].chain] = self.plan.ops[e].value

    def may_finish(self, j):
        job = self.plan.jobs[j]
        actor = ('host', None) if job.queue is None else ('R', job.queue)
        return (j in self.started and j not in self.finished and self.applied[j] == len(job.commands)
                and all(e in self.made for e in job.signals) and self.are_reached(j)
                and (j in self.answers or not job.is_asked) and all(other != actor for other, _, _ in self.held))

    def finish(self, j):
        self.finished.add(j)

    def may_answer(self, j, answer):
        job = self.plan.jobs[j]
        if not self.is_step(j) or not job.is_asked or j not in self.started or j in self.answers:
            return False
        if job.kind == 'host read':
            [(t, _)] = job.asked
            since = [self.at_start[j][t]] + [self.plan.ops[e].value for e in self.plan.chains[t] if e in self.made]
            return any(answer == f'value {value}' for value in since if value >= self.at_start[j][t])
        pairs = job.asked or [(t, value) for _, t, value in job.needs]
        now = [self.payload[t] >= value for t, value in pairs]
        before = [self.at_start[j][t] >= value for t, value in pairs]
        if answer == 'ok':
            return any(now) if job.any or job.kind == 'host poll any' else all(now)
        if job.kind == 'host poll all':
            return answer == 'timeout' and not all(before)
        if job.kind == 'host poll any':
            return answer == 'timeout' and not any(before)
        return job.kind == 'host fence poll' and answer == 'not-ready' and not all(before)

    def answer(self, j, answer):
        self.answers[j] = answer

    # Points.

    def may_take(self, e, q, fresh):
        op = self.plan.ops[e]
        if e in self.point_of:
            return False
        if self.is_step(op.job):
            if op.job not in self.started:
                return False
        elif not (op.job in self.submitted and op.job not in self.released and self.needs_are_pending(op.job)
                  and all(i in self.released for i in self.earlier_in_queue(op.job))):
            return False
        free = self.free[op.chain]
        return (not free and q == self.points) if fresh else free[:1] == [q]

    def take(self, e, q, fresh):
        self.point_of[e], self.carried[q] = q, e
        if fresh:
            self.points += 1
        else:
            self.free[self.plan.ops[e].chain].remove(q)

    def may_bind(self, e, q):
        job = self.plan.ops[e].job
        return (self.carried.get(q) == e and e not in self.bound
                and job in (self.started if self.is_step(job) else self.released)
                and all(other in self.bound for other in self.smaller(e)))

    def bind(self, e, q):
        self.bound.add(e)

    def may_complete(self, e):
        return (e in self.bound and e not in self.past and e in self.made
                and all(other in self.past for other in self.smaller(e)))

    def complete(self, e):
        self.past.add(e)
        self.waiting.add(self.point_of[e])

    def may_free(self, q):
        return q in self.waiting and all(point != q for _, point, _ in self.held)

    def free_point(self, q):
        self.waiting.remove(q)
        self.free[self.plan.ops[self.carried.pop(q)].chain].insert(0, q)

    def may_refer(self, actor, q, e):
        j = self.next_job(actor)
        if j is None or self.carried.get(q) != e or e not in self.bound or not (self.is_step(j) or j in self.released):
            return False
        resolved = [self.plan.resolver(t, value) for t, value in self.needs(j)]
        now = [self.plan.resolver(t, value)
               for t, value in self.needs(j, lambda place: place > 1 if j in self.started else place == 1)]
        return e in now and self.referred[j].count(e) < resolved.count(e)

    def refer(self, actor, q, e):
        self.referred[self.next_job(actor)].append(e)
        self.held.append((actor, q, e))

    def may_look(self, actor, q, e):
        j = self.next_job(actor)
        return (j is not None and (actor, q, e) in self.held and e in self.made
                and self.looked[j].count(e) < self.referred[j].count(e))

    def look(self, actor, q, e):
        self.looked[self.next_job(actor)].append(e)

    def may_unref(self, actor, q, e):
        return (actor, q, e) in self.held

    def unref(self, actor, q, e):
        self.held.remove((actor, q, e))


def judge(script, events, end, rest):
    """Raises Broken for a trace that isn't lawful."""
    ledger = Ledger(script.plan)
    for line, event in events:
        if not ledger.come(event):
            raise Broken(line)
    end_line, said = end
    left = len(script.plan.jobs) - len(ledger.finished)
    if said != (left or 'finished'):
        raise Broken(end_line)
    wanted = [] if left else [b' '.join(words) for words in lines_of(script.text(ledger.answers))]
    for place in range(max(len(wanted), len(rest))):
        if place == len(rest):
            raise Broken((rest[-1][0] if rest else end_line) + 1)
        if place == len(wanted) or rest[place][1] != wanted[place]:
            raise Broken(rest[place][0])


def audit(data, make_script, refusal):
    """(status, text) for `--audit`. Scripts are read by `make_script`, which raises `refusal`."""
    if len(data) > LIMIT:
        return 2, b'error: too long\n'
    parts = cut(data)
    if parts is None:
        return 2, b'error: no trace\n'
    written, trace, first = parts
    try:
        script = make_script(written)
    except refusal as fault:
        return 2, f'error: {fault}\n'.encode()
    try:
        judge(script, *TraceReader(script).read(trace, first))
    except Faulty as line:
        return 2, f'error: trace: line {line}\n'.encode()
    except Broken as line:
        return 0, f'broken: line {line}\n'.encode()
    return 0, b'lawful\n'
