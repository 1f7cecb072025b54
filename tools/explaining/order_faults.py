"""Faults of the order: the lines in their batches, what orders these or fails to, and the rule."""
from order import final_numbers
from race_faults import ORDERS, race


def explain_order(page, asked):
    kind, lines = page.verdict.kind, page.verdict.lines
    {'unreachable': unreachable, 'unordered': unordered, 'fence busy': fence_busy, 'not pending': not_pending,
     'race': race}[kind](asked, page, *lines)


def unreachable(asked, page, line):
    ring, seen, j = [], set(), asked.job_at(line)
    numbers = final_numbers(asked.plan, asked.order.slow)
    stuck = set(asked.order.stuck)
    while j is not None and j not in seen:
        seen.add(j)
        blocked = blocking(asked, j, numbers, stuck)
        ring.append(j)
        if len(ring) <= 8:
            asked.show(j)
            page.mark(*blocked[:2])
        j = blocked[2]
    if j is not None:
        round_ = ring[ring.index(j):]
        if len(round_) == 1:
            page.note(f'{asked.called(j)} waits for itself')
        else:
            more = f', then {len(round_) - 8} more' if len(round_) > 8 else ''
            page.note('they wait for each other: ' + ', then '.join(asked.called(i) for i in round_[:8]) + more +
                      f', which waits for {asked.called(j)} again')
    page.rule('a driver would hang at a wait that no order of the batches reaches; a batch signals after its waits, '
              'and the host submits a batch when its lines before it are done')
    page.help('let another queue or the host signal that value, wait for less, break the ring, or move the host\'s '
              'wait behind the batch')


def blocking(asked, j, numbers, stuck):
    """Why a job that is left over can't start: a line, what is wrong there, and the job that it hangs on."""
    plan, job = asked.plan, asked.plan.jobs[j]
    for line, t, value in job.needs:
        if numbers[t] >= value:
            continue
        e = plan.resolver(t, value)
        if e is not None:
            return line, f'waits for {asked.signal(e)}', plan.ops[e].job
        if plan.kinds[t] == 'fence':
            return line, f'no batch names {plan.names[t]} since its last reset, or none at all', None
        return line, f'nothing brings {plan.names[t]} to {value}: it comes to {asked.highest(t)} at most', None
    for i, why in asked.links(j):
        if i in stuck:
            return job.line, f'comes after {asked.called(i)}, which {why}', i
    return job.line, 'can start', None


def unordered(asked, page, first, second):
    plan = asked.plan
    for line in (first, second):
        asked.show(asked.job_at(line))
    at = {op.line: e for e, op in enumerate(plan.ops)}
    if first == second:
        op = plan.ops[at[first]]
        page.mark(first, f'{plan.names[op.chain]} begins with {plan.initial[op.chain]}, and this is not above it')
        page.rule('a signal raises its timeline (Vulkan, vkQueueSubmit, vkSignalSemaphore)')
        page.help('signal a greater value')
    elif first not in at:
        page.mark(first, 'waits for it')
        page.mark(second, 'may signal it again before that')
        asked.note_before(asked.job_at(second))
        page.rule('a binary semaphore is unsignaled when it is signaled')
        page.help('let the second batch come after the one that waits: it waits for a signal of that, or stands in its '
                  'queue')
    else:
        signals_unordered(asked, page, *sorted_signals(asked, at, first, second))


def sorted_signals(asked, at, first, second):
    """The signals at two lines, the smaller value first."""
    return sorted((at[first], at[second]), key=lambda e: (asked.plan.ops[e].value, asked.plan.ops[e].line))


def signals_unordered(asked, page, e, after):
    plan, called = asked.plan, asked.called
    low, high, name = plan.ops[e], plan.ops[after], plan.names[plan.ops[e].chain]
    sooner, later = low.job, high.job
    rule = f'the payload of a timeline rises, so its signals stand in a sure order; {ORDERS}'
    if sooner == later:
        page.mark(low.line, f'sets {name} to {low.value}')
        page.mark(high.line, f'sets {name} to {high.value}, in the same batch')
        page.note('one batch makes both, and for other queues nothing orders the signals of a batch')
        page.help(f'signal {name} once in this batch')
    elif low.value == high.value:
        page.mark(low.line, f'sets {name} to {low.value}')
        page.mark(high.line, f'sets {name} to {high.value} too, and is to raise it')
        page.help(f'signal a value above {low.value} in line {asked.at(high.line)}, behind a wait for {name} '
                  f'{low.value}')
    elif asked.is_before(later, sooner):
        page.mark(high.line, f'sets {name} to {high.value} before')
        page.mark(low.line, f'sets {name} back to {low.value}')
        page.note(f'{called(later)} comes before {called(sooner)}')
        page.help(f'signal a value above {high.value} in line {asked.at(low.line)}')
    else:
        page.mark(low.line, 'is to come first')
        page.mark(high.line, 'may come before it')
        asked.note_before(later)
        if asked.is_before(sooner, later):
            page.note(f'{called(later)} waits for an earlier signal of {called(sooner)}, which makes this one behind '
                      'it')
        page.help(f'let {called(later)} come after {asked.signal(e)}, or give each queue a timeline of its own')
    page.rule(rule)


def fence_busy(asked, page, line):
    h = asked.job_at(line)
    e = next(e for reset, e in asked.plan.resets if reset == h)
    i = asked.plan.ops[e].job
    asked.show(i)
    page.mark(asked.plan.ops[e].line, 'signaled when this batch is done')
    page.mark(line, 'may come before that')
    for k in range(i + 1, h):
        job = asked.plan.jobs[k]
        if job.kind == 'host fence poll' and job.asked[0][0] == asked.plan.ops[e].chain:
            page.mark(job.line, 'orders nothing, whatever it answers')
    asked.note_before(h)
    if asked.is_before(i, h):
        page.note(f'the wait is for another signal of {asked.called(i)}, and its fence comes last')
    page.rule('a fence that is reset is not in use by a batch (Vulkan, vkResetFences)')
    page.help('let the host wait for the fence, or for idle, before it resets it')


def not_pending(asked, page, line):
    j, plan = asked.job_at(line), asked.plan
    asked.show(j)
    t, value = next((t, value) for at, t, value in plan.jobs[j].needs if at == line)
    e = plan.awaited_signal(t, value)
    i = plan.ops[e].job
    asked.show(i)
    page.mark(line, f'{asked.queues[plan.jobs[j].queue]} is immediate: its batches are moved when they are submitted')
    if i > j:
        page.mark(plan.ops[e].line, 'the signal: it is made by a batch or a line that comes later')
    else:
        mode = plan.modes[plan.jobs[i].queue].decode()
        page.mark(plan.ops[e].line, f'the signal: a {mode} queue may make it pending later')
    page.rule('such a queue holds no batch back, so what a batch waits for is pending when it is submitted: a signal '
              'of the host or of an immediate queue before it, or one that a host line before it is sure of')
    page.help(f'make {asked.queues[plan.jobs[j].queue]} deferred or threaded, or let a host line between the two wait')
