"""Faults in the use of binary semaphores and fences: all uses up to the faulty one, in the order of the lines."""
import itertools

from draft import delete, insert, replace
from reading import read_whole

RULES = {
    'no signal': 'a wait of a binary semaphore takes an earlier signal that no earlier wait took (Vulkan, '
                 'vkQueueSubmit)',
    'signaled twice': 'a binary semaphore is unsignaled when it is signaled: a wait stands between two signals '
                      '(Vulkan, vkQueueSubmit)',
    'fence used': 'a fence that a batch names is unsignaled and not in use (Vulkan, vkQueueSubmit)',
}
HELPS = {
    'no signal': 'submit the batch that signals it first, or use a timeline, which may be waited for '
                 'before it is signaled, and by many',
    'signaled twice': 'let a batch wait for it in between, or use two semaphores',
    'fence used': 'let the host wait for the fence and reset it in between (`host fence wait`, `host fence reset`), or '
                  'declare another fence',
}
# So many batches are tried for a wait.
MOST_BATCHES = 4
FAULTY = {'no signal': 'waits, and no signal is left for it', 'signaled twice': 'signals again',
          'fence used': 'names it again'}


class Use:
    """A use of a semaphore: its line, what it does, and the job."""

    def __init__(self, line, semaphore, what, job):
        self.line, self.semaphore, self.what, self.job = line, semaphore, what, job


class Uses:
    def __init__(self, page, word):
        self.page, self.kind, [self.number] = page, page.verdict.kind, page.verdict.lines
        self.reader = read_whole(page.draft.data(), word)
        uses = uses_of(self.reader)
        semaphore = next(use.semaphore for use in uses if use.line == self.number)
        self.uses = [use for use in uses if use.semaphore == semaphore]
        self.name = next(name.decode() for name, (kind, number) in self.reader.names.items()
                         if number == semaphore and kind not in ('buffer', 'queue'))

    def declared(self):
        """The line that declares the semaphore."""
        return next(line for line, text in enumerate(self.page.lines, 1)
                    if text.split('#')[0].split()[1:2] == [self.name])

    def faulty(self):
        return next(use for use in self.uses if use.line == self.number)


def uses_of(reader):
    """The uses of semaphores in the order of lines."""
    found = []
    for job in reader.jobs:
        if job.queue is None:
            found += [Use(job.line, t, f'`{job.kind}`', job) for t, _ in job.pairs]
            continue
        found += [Use(line, t, 'waits for it', job) for line, t, _ in job.waits]
        found += [Use(line, t, 'signals it', job) for line, t, _ in job.signals]
        if job.fence:
            found.append(Use(job.fence[0], job.fence[1], 'names it: it is signaled when this batch is done', job))
    return found


def explain_use(page, uses):
    earlier = [use for use in uses.uses if use.line < uses.number]
    for use in earlier[-8:] + [uses.faulty()]:
        page.show(use.job.line)
        page.mark(use.line, use.what if use.line < uses.number else FAULTY[uses.kind])
    if not earlier:
        page.note('no earlier line names it')
    elif len(earlier) > 8:
        page.note(f'{len(earlier) - 8} earlier uses aren\'t shown')
    page.rule(RULES[uses.kind])
    page.help(HELPS[uses.kind])


# Mends, in groups, the best ones first: each is what to do, and the edits.

def use_mends(verdict, uses):
    return {'no signal': no_signal, 'signaled twice': signaled_twice, 'fence used': fence_used}[verdict.kind](uses)


def left_out(uses):
    return [(f'leave out line {uses.page.at(uses.number)}', [delete(uses.number)])]


def no_signal(uses):
    return [as_timeline(uses), left_out(uses)]


def signaled_twice(uses):
    again = uses.faulty()
    before = [use for use in uses.uses if use.line < uses.number][-1]
    return [waited_between(uses, before, again), another_binary(uses, again), as_timeline(uses), left_out(uses)]


def waited_between(uses, before, again):
    """A wait in a batch between two signals, of another queue first: one that signals it again would wait for itself."""
    blocks = getattr(uses.reader, 'block_lines', ())
    batches = [job for job in uses.reader.jobs if job.queue is not None and job.line not in blocks
               and before.job.line < job.line < again.job.line]
    batches.sort(key=lambda job: job.queue in (before.job.queue, again.job.queue))
    return [(f'let the batch at line {uses.page.at(job.line)} wait for {uses.name}',
             [insert(job.line + 1, f'wait {uses.name}')]) for job in batches[:MOST_BATCHES]]


def another_binary(uses, again):
    """A binary semaphore of its own for the second signal, and for the wait that takes it."""
    other = free_name(uses)
    later = list(itertools.takewhile(lambda use: use.what != 'signals it',
                                     [use for use in uses.uses if use.line > again.line]))
    edits = [insert(uses.declared(), f'binary {other}'), replace(again.line, f'signal {other}')]
    edits += [replace(use.line, f'wait {other}') for use in later if use.what == 'waits for it']
    return [(f'signal another semaphore, {other}, in line {uses.page.at(again.line)}', edits)]


def free_name(uses):
    """A name like the semaphore's that is free."""
    names = [f'{uses.name[:12]}_{number}' for number in range(2, 300)]
    return next(tried for tried in names if tried.encode() not in uses.reader.names)


def as_timeline(uses):
    """The binary semaphore as a timeline, which each signal raises by one."""
    signals = [use for use in uses.uses if use.what == 'signals it']
    if not signals:
        return []
    edits, value, waited = [replace(uses.declared(), f'timeline {uses.name} 0')], 0, 0
    for use in uses.uses:
        if use.what == 'signals it':
            value += 1
            edits.append(replace(use.line, f'signal {uses.name} {value}'))
        else:
            waited = min(max(value, waited + (value <= waited)), len(signals))
            edits.append(replace(use.line, f'wait {uses.name} {max(1, waited)}'))
    return [(f'make {uses.name} a timeline: it may be waited for before it is signaled, and by many', edits)]


def fence_used(uses):
    again, name, page = uses.faulty(), uses.name, uses.page
    first, other = again.job.line, free_name(uses)
    waits, resets = insert(first, f'host fence wait {name}'), insert(first, f'host fence reset {name}')
    reset = (f'let the host reset {name} before line {page.at(first)}', [resets])
    both = (f'let the host wait for {name} and reset it before line {page.at(first)}', [waits, resets])
    return [[reset] if is_waited_for(uses) else [], [both],
            [(f'name another fence, {other}, in line {page.at(uses.number)}',
              [insert(uses.reader.jobs[0].line, f'fence {other}'), replace(uses.number, f'fence {other}')])],
            left_out(uses)]


def is_waited_for(uses):
    """Whether the host waits for the fence already, or for idle, between the batch that names it and the one that does
    so again."""
    named = [use.line for use in uses.uses if use.line < uses.number and use.job.queue is not None][-1]
    return any(named < job.line < uses.number and (job.kind == 'host idle' or job.kind == 'host fence wait' and any(
        use.line == job.line for use in uses.uses)) for job in uses.reader.jobs if job.queue is None)
