"""Mends of faults of the order, in groups, the best ones first: each is what to do, and the edits."""
from behind import Behind, moved_behind, woven
from draft import delete, insert, replace
from order import final_numbers, share, touched
from order_faults import blocking
from trying import OnlyLawful

# So many jobs are looked at that a wait hangs on, one by another.
LONGEST = 16


def order_mends(verdict, asked):
    return {'unreachable': unreachable, 'unordered': unordered, 'fence busy': fence_busy, 'not pending': not_pending,
            'race': race}[verdict.kind](asked, *verdict.lines)


def race(asked, first, second):
    i, j = asked.job_at(first), asked.job_at(second)
    sooner = held_sooner(asked, i, j, second) + held_sooner(asked, j, i, first)
    return [sooner] + woven(Behind(asked, i, j).groups(), Behind(asked, j, i).groups())


def held_sooner(asked, i, j, line):
    """The waits of job j that put it behind job i, but hold back only commands behind this line: they hold it back too."""
    place = asked.place(j, line)
    return [(f'let the wait of line {asked.at(at)} hold back line {asked.at(line)} too',
             [replace(at, ' '.join(asked.words(at)[:-2] + (['from', str(place)] if place > 1 else [])))])
            for at, e, held_from in asked.held_waits(j)
            if held_from > place and asked.is_behind(asked.plan.ops[e].job, i)]


# Signals.

def unordered(asked, first, second):
    plan = asked.plan
    at = {op.line: e for e, op in enumerate(plan.ops)}
    if first == second:
        return [raised(asked, at[first], plan.initial[plan.ops[at[first]].chain])]
    if first not in at:
        return Behind(asked, asked.job_at(first), asked.job_at(second)).groups()
    e, after = sorted((at[first], at[second]), key=lambda e: (plan.ops[e].value, plan.ops[e].line))
    low, high = plan.ops[e], plan.ops[after]
    if low.job == high.job:
        text = f'signal {plan.names[low.chain]} {high.value} alone: it reaches each wait for {low.value} too'
        return [[(text, [delete(low.line)])]]
    if low.value == high.value:
        return equal_values(asked, e, after)
    if asked.is_before(high.job, low.job):
        return [raised(asked, e, high.value), [left_out(asked, low.line)]]
    return apart(asked, e, after)


def raised(asked, e, above):
    """A signal with a value above another one: just above, or above all of its timeline."""
    op, name = asked.plan.ops[e], asked.plan.names[asked.plan.ops[e].chain]
    values = dict.fromkeys([above + 1, asked.highest(op.chain) + 1])
    return [(f'signal a value above {above} in line {asked.at(op.line)}',
             [replace(op.line, signal_line(asked, op, f'{name} {value}'))]) for value in values if value < 2 ** 64]


def signal_line(asked, op, held):
    return f'host signal {held}' if asked.plan.jobs[op.job].queue is None else f'signal {held}'


def equal_values(asked, e, after):
    """Two signals of one value: the second one is raised, behind the first."""
    if asked.is_before(asked.plan.ops[after].job, asked.plan.ops[e].job):
        e, after = after, e
    low, high = asked.plan.ops[e], asked.plan.ops[after]
    lifted = raised(asked, after, low.value)
    behind = Behind(asked, low.job, high.job)
    ways = [behind.given(only=e), behind.of_its_own()] if behind.is_open() else []
    both = [[(f'{text}, and {wait}', edits + more) for text, edits in lifted for wait, more in way] for way in ways]
    return [lifted, *both, [left_out(asked, high.line)]]


def apart(asked, e, after):
    """Two signals of which the greater one may come first."""
    low, high = asked.plan.ops[e], asked.plan.ops[after]
    behind = Behind(asked, low.job, high.job)
    if not behind.is_open():
        return [raised(asked, e, high.value)]
    at_least = [behind.given(only=e)] + behind.groups()
    # Or the other way round: the smaller one is raised above the greater one, behind it.
    turned = Behind(asked, high.job, low.job)
    waits = turned.given(only=after) if turned.is_open() else []
    both = [(f'{text}, and {wait}', edits + more)
            for text, edits in raised(asked, e, high.value) for wait, more in waits]
    return at_least + [both, another_timeline(asked, high)]


def another_timeline(asked, op):
    """A timeline of its own for one signal and for the waits that it alone reaches."""
    plan, name = asked.plan, asked.fresh(f'{asked.plan.names[op.chain]}'[:12] + '_own')
    edits = [insert(asked.first_line, f'timeline {name} 0'),
             replace(op.line, signal_line(asked, op, f'{name} {op.value}'))]
    for job in plan.jobs:
        for line, t, value in job.needs:
            e = plan.awaited_signal(t, value)
            if t == op.chain and e is not None and plan.ops[e] is op:
                if job.queue is None or asked.has_pairs(line):
                    return []
                edits.append(replace(line, f'wait {name} {value}{asked.held_text(line)}'))
    return [(f'signal a timeline of its own, {name}, in line {asked.at(op.line)}', edits)]


# Fences, and queues that hold nothing back.

def fence_busy(asked, line):
    h = asked.job_at(line)
    name = asked.words(line)[3]
    return [[(f'let the host wait for {name} before line {asked.at(line)}', [insert(line, f'host fence wait {name}')])],
            [(f'let the host wait for idle before line {asked.at(line)}', [insert(line, 'host idle')])],
            [(f'leave out line {asked.at(asked.plan.jobs[h].line)}', [delete(line)])]]


def not_pending(asked, line):
    j, plan = asked.job_at(line), asked.plan
    t, value = next((t, value) for at, t, value in plan.jobs[j].needs if at == line)
    op = plan.ops[plan.awaited_signal(t, value)]
    submit = plan.jobs[j].line
    groups = []
    if op.job < j and plan.kinds[t] == 'timeline':
        held = f'{plan.names[t]} {op.value}'
        groups.append([(f'let the host wait for {held} before {asked.called(j)}',
                        [insert(submit, f'host wait all {held}')])])
    queue = asked.queues[plan.jobs[j].queue]
    at = asked.declared(queue)
    groups.append([(f'make {queue} {mode}', [replace(at, f'queue {queue} {mode}')])
                   for mode in ('deferred', 'threaded')])
    groups.append([(f'let the host wait for idle before {asked.called(j)}', [insert(submit, 'host idle')])])
    return groups


# Waits that nothing reaches.

def unreachable(asked, line):
    """What is waited for is submitted first or elsewhere, or else what holds the wait back is mended, from the last
    thing in its way on; then the wait may go."""
    numbers, stuck = final_numbers(asked.plan, asked.order.slow), set(asked.order.stuck)
    chain, j = [], asked.job_at(line)
    while j is not None and j not in [i for i, _ in chain] and len(chain) < LONGEST:
        at, _, after = blocking(asked, j, numbers, stuck)
        chain.append((j, at))
        j = after
    ring = chain[[i for i, _ in chain].index(j):] if j in [i for i, _ in chain] else []
    groups = [OnlyLawful(submitted_sooner(asked, ring)), OnlyLawful(submitted_elsewhere(asked, ring))]
    groups += [group for i, at in reversed(chain) for group in unblocked(asked, i, at, numbers)]
    if j is None and asked.words(chain[-1][1])[0] in ('wait', 'host'):
        groups.append([left_out(asked, chain[-1][1])])
    return groups + [[left_out(asked, line)]]


def unblocked(asked, j, line, numbers):
    """The ways to let a job go on that waits at a line."""
    plan, job, words, groups = asked.plan, asked.plan.jobs[j], asked.words(line), []
    if job.queue is None:
        groups += host_wait_moved(asked, j, numbers)
    missing = need(job, line, numbers)
    if words[0] == 'wait' and missing and plan.kinds[missing[0]] == 'timeline':
        t, value = missing
        least = {numbers[t], own_floor(asked, j, t)}
        groups.append([(f'wait for less: {plan.names[t]} is brought to {less}{turned_round(asked, j, t, value)}',
                        [replace(line, f'wait {plan.names[t]} {less}{asked.held_text(line)}')])
                       for less in sorted(least, reverse=True) if plan.initial[t] < less < value
                       and not asked.has_pairs(line)])
        groups.append(signal_in_reach(asked, j, t, value))
    elif job.kind in ('host wait all', 'host wait any'):
        groups.append(fewer_pairs(asked, job, numbers))
    return groups


def need(job, line, numbers):
    """The first need of a line that isn't reached."""
    return next(((t, value) for at, t, value in job.needs if at == line and numbers[t] < value), None)


def left_out(asked, line):
    """A line left out; of a batch's wait it is said what that does to the bytes."""
    j, said = asked.job_at(line), ''
    if asked.plan.jobs[j].queue is not None and asked.words(line)[0] == 'wait':
        t, value = next((t, value) for at, t, value in asked.plan.jobs[j].needs if at == line)
        said = turned_round(asked, j, t, value)
    return f'leave out line {asked.at(line)}{said}', [delete(line)]


def turned_round(asked, j, t, value):
    """What becomes of the bytes where a batch doesn't wait any more for a signal that comes behind it."""
    e = asked.plan.awaited_signal(t, value)
    if e is None or asked.plan.ops[e].job == j:
        return ''
    k = asked.plan.ops[e].job
    both = [(at, other) for at, command in asked.plan.jobs[j].commands for other, later in asked.plan.jobs[k].commands
            if conflict(touched(command), touched(later))]
    if not both:
        return f'; no command of {asked.called(j)} touches what {asked.called(k)} writes, nor the other way round'
    at, other = both[0]
    return (f'; the {asked.words(at)[0]} of line {asked.at(at)} then comes before the {asked.words(other)[0]} of line '
            f'{asked.at(other)}, which it was to come after')


def conflict(one, other):
    """Whether two commands share a byte that one of them writes; of each what it writes and what it reads."""
    return share(one[0], other[0]) or share(one[0], other[1]) or share(one[1], other[0])


def submitted_sooner(asked, ring):
    """Of jobs that hang on each other: what is waited for, submitted before the batch of its queue that holds it up."""
    found = []
    for k, i in held_up(asked, ring):
        lines = [asked.page.lines[line - 1] for line in range(asked.first[k], asked.last[k] + 1)]
        edits = [delete(line) for line in range(asked.first[k], asked.last[k] + 1)]
        found.append((f'submit {asked.called(k)} before {asked.called(i)}',
                      edits + [insert(asked.first[i], text) for text in lines]))
    return found


def submitted_elsewhere(asked, ring):
    """The same, submitted to a queue of its own."""
    found = []
    for k, _ in held_up(asked, ring):
        name = asked.fresh(f'{asked.queues[asked.plan.jobs[k].queue]}'[:12] + '_own')
        found.append((f'submit {asked.called(k)} to a queue of its own, {name}',
                      [insert(asked.first_line, f'queue {name} threaded'), replace(asked.first[k], f'submit {name}')]))
    return found


def held_up(asked, ring):
    """The batches of a ring that are waited for and can't start, as one of their queue before them waits: pairs."""
    jobs, found = asked.plan.jobs, []
    for place, (i, at) in enumerate(ring):
        if jobs[i].queue is None or asked.is_of_thread(i) or asked.words(at)[0] != 'wait':
            continue
        k = None
        for other, line in reversed(ring[place + 1:] + ring[:place]):
            if jobs[other].queue != jobs[i].queue or asked.words(line)[0] != 'submit':
                break
            k = other
        if k is not None and k > i:
            found.append((k, i))
    return found


def own_floor(asked, j, t):
    """The greatest value of a timeline that is signaled by other queues."""
    plan = asked.plan
    values = [plan.ops[e].value for e in plan.chains[t] if plan.jobs[plan.ops[e].job].queue != plan.jobs[j].queue]
    return max(values + [plan.initial[t]])


def host_wait_moved(asked, h, numbers):
    """The host's wait, moved behind the batch that it waits for."""
    plan = asked.plan
    targets = [plan.ops[e].job for _, t, value in plan.jobs[h].needs if numbers[t] < value
               for e in [plan.resolver(t, value)] if e is not None]
    if plan.jobs[h].kind == 'host fence wait':
        t = plan.jobs[h].needs[0][1]
        targets += [op.job for op in plan.ops if op.chain == t and op.job > h][:1]
    found = [moved_behind(asked, h, j) for j in [max(targets, default=h)] if j > h]
    return [found, [moved_behind(asked, h, len(plan.jobs) - 1)] if found else []]


def fewer_pairs(asked, job, numbers):
    """The host's wait for what is reached alone."""
    kept = [(t, min(value, numbers[t])) for _, t, value in job.needs if min(value, numbers[t]) > asked.plan.initial[t]]
    reached = [(t, value) for _, t, value in job.needs if numbers[t] >= value]
    lines = []
    for pairs in (kept, reached):
        if pairs:
            held = ' '.join(f'{asked.plan.names[t]} {value}' for t, value in pairs)
            lines.append((f'wait for what is reached: {held}', [replace(job.line, f'{job.kind} {held}')]))
    return lines


def signal_in_reach(asked, j, t, value):
    """A signal of that value by the host, behind all lines, where nothing signals it and no later host line waits."""
    plan = asked.plan
    if plan.resolver(t, value) is not None:
        return []
    name = plan.names[t]
    return [(f'let the host signal {name} {value}', [insert(asked.end, f'host signal {name} {value}')])]
