"""Faults of the lines of a given trace: a line that can't be read, and one that may not come where it stands."""
from judging import Faulty, Ledger, TraceReader, cut, lines_of, numeral
from lowering import Plan
from reading import read_whole
from trace_causes import Causes, next_events

# The words of an outcome by its first one, as they are written.
FORMS = {'submit': 'submit L', 'release': 'release L', 'start': 'start L', 'finish': 'finish L', 'apply': 'apply L',
         'take': 'take T V fresh P` or `take T V reused P', 'bind': 'bind T V P', 'refer': 'refer P T V',
         'look': 'look P T V', 'unref': 'unref P T V', 'complete': 'complete T V', 'signal': 'signal T V',
         'free': 'free P', 'answer': 'answer L ok`, `answer L timeout`, `answer L not-ready` or `answer L value N'}
MAKERS = {'submit': 'the host alone submits', 'refer': 'only the host and rings watch points',
          'look': 'only the host and rings watch points', 'unref': 'only the host and rings watch points',
          'complete': 'rings complete nothing: the host and those who submit do',
          'free': 'rings free nothing: the host and those who submit do'}
FORM_RULE = 'a line of a trace is a number, an actor and what it did; numbers rise'
ORDER_RULE = 'an event comes only where docs/TURNS.md lets it; docs/AUDIT.md has a table of what is wrong by the event'
# So many events, times batches and host lines, are gone through.
MOST_STEPS = 40_000_000


class Traced:
    """A faultless script, and the trace behind it."""

    def __init__(self, page, word):
        self.page, [self.number] = page, page.verdict.lines
        reader = read_whole(page.draft.data(), word)
        self.plan = Plan(reader)
        self.names = {number: name.decode() for name, (kind, number) in reader.names.items() if kind == 'queue'}
        _, self.trace, self.first = cut(page.draft.data())
        self.lines = lines_of(self.trace)
        self.reader = TraceReader(self)

    def queue_names(self):
        return self.names

    def words(self):
        """The words of the faulty line, none behind the last one."""
        place = self.number - self.first
        return [word.decode('latin-1') for word in self.lines[place]] if place < len(self.lines) else []

    def said_before(self):
        """The greatest number of a line before it."""
        return max([numeral(words[0]) for words in self.lines[:self.number - self.first] if words], default=-1)

    def played(self):
        """The ledger of all before the faulty line, the lines of its events, and how the trace goes on; or None where
        that is too long."""
        events, end, rest = self.reader.read(self.trace, self.first)
        before = [(line, event) for line, event in events if line < self.number]
        if len(before) * len(self.plan.jobs) > MOST_STEPS:
            return None
        ledger, came = Ledger(self.plan), {}
        for line, event in before:
            ledger.come(event)
            came[event[0], event[1]] = line
        return ledger, came, [event for line, event in events if line == self.number], end, rest


def explain_trace(page, traced):
    if page.verdict.kind == 'trace':
        explain_form(page, traced)
    else:
        explain_broken(page, traced)


# A line that can't be read.

def explain_form(page, traced):
    words, number = traced.words(), traced.number
    page.rule(FORM_RULE)
    if not words:
        page.mark(number, 'the trace ends here')
        page.help('end it with `finished`, the answers and the buffers, or with `unfinished N` where N batches and host '
                  'lines are left')
        return
    at, text, mend = form_fault(traced, words)
    page.mark(number, text, at)
    page.help(mend)


def form_fault(traced, words):
    """Of a line that can't be read: which word is at fault, what is wrong with it, and what to write."""
    last = traced.said_before()
    value = number_of(words[0])
    if value is None:
        return 0, 'a number belongs here', 'write `NUMBER ACTOR WHAT`, as `7 host submit 5`'
    if len(words) < 2 or actor_of(traced, words[1]) is None:
        return 1, 'no actor', 'write `host`, or `S:QUEUE` for who submits the batches of a queue, `R:QUEUE` for the queue'
    verb = words[2] if len(words) > 2 else ''
    if verb not in FORMS and words[2:] not in (['-'], ['.']):
        return 2, 'no event has this name', 'write one of ' + ', '.join(sorted(FORMS)) + ', or `-`'
    actor, event = actor_of(traced, words[1]), None
    if verb in FORMS:
        try:
            event = traced.reader.event(verb, [word.encode('latin-1') for word in words[3:]], actor)
        except (ValueError, KeyError, IndexError):
            return None, named(traced, verb, words[3:]), f'write `{FORMS[verb]}`, with the names and lines of the script'
        if not traced.reader.may_make(actor, event):
            return (1, f'{words[1]} can\'t do that: {maker(traced, event)}',
                    'write it of who does it, or leave the line out')
    if value <= last:
        return 0, f'not above {last}, a number before it', 'count up; where threads write in parts, sort by time first'
    return None, 'it can\'t be read', 'compare it with docs/AUDIT.md'


def number_of(word):
    try:
        return numeral(word.encode('latin-1'))
    except ValueError:
        return None


def actor_of(traced, word):
    try:
        return traced.reader.actor(word.encode('latin-1'))
    except (ValueError, KeyError):
        return None


def named(traced, verb, words):
    """What a line names that the script hasn't."""
    plan = traced.plan
    pair = words[1:3] if verb in ('refer', 'look', 'unref') else words[:2]
    if verb in ('take', 'bind', 'refer', 'look', 'unref', 'complete', 'signal') and len(pair) == 2:
        if pair[0] not in plan.names:
            return f'the script has no semaphore or fence {pair[0]}'
        t = plan.names.index(pair[0])
        values = [str(value) for value in dict.fromkeys(plan.values[t])]
        if number_of(pair[1]) not in plan.values[t]:
            said = ', '.join(values[:8]) + (' ..' if len(values) > 8 else '') or 'nothing'
            return f'no line signals {" ".join(pair)}: {pair[0]} is signaled with {said}'
    if verb in ('submit', 'release', 'start', 'finish', 'answer', 'apply') and words:
        wanted = traced.reader.commands if verb == 'apply' else traced.reader.jobs
        if number_of(words[0]) not in wanted:
            what = 'command' if verb == 'apply' else 'batch and no host line'
            return f'no {what} stands at line {words[0]}'
    return f'not the form `{FORMS[verb]}`'


def maker(traced, event):
    """Who makes an event."""
    if event[0] in MAKERS:
        return MAKERS[event[0]]
    queue = traced.plan.jobs[traced.reader.job_of(event)].queue
    if queue is None:
        return 'it is the host\'s'
    name = traced.names[queue]
    if event[0] in ('take', 'release', 'bind'):
        return f'it is of S:{name}' if traced.plan.modes[queue] == b'threaded' else 'it is the host\'s'
    return f'it is of R:{name}'


# A line that may not come.

def explain_broken(page, traced):
    page.rule(ORDER_RULE)
    try:
        played = traced.played()
    except Faulty:
        played = None
    if played is None:
        page.mark(traced.number, 'wrong here')
        page.note('the trace is too long for its causes to be told')
        return
    ledger, came, events, (end, said), rest = played
    if events:
        broken_event(page, traced, ledger, came, events[0])
    else:
        broken_end(page, traced, ledger, end, said, rest)


def broken_event(page, traced, ledger, came, event):
    causes = Causes(traced, ledger, came)
    found = causes.of(event)
    page.mark(traced.number, found[0] if found else 'it may not come here')
    for text in found[1:]:
        page.note(text)
    for line in causes.lines:
        page.show(line)
    word = traced.words()[1]
    able = next_events(traced, ledger, traced.reader.actor(word.encode('latin-1')))
    if able:
        some = ', '.join(f'`{text}`' for text in able[:4]) + (' ..' if len(able) > 4 else '')
        page.note(f'{word} may go on with {some}')
        page.help(f'write what the layer did there, as `{able[0]}`, or mend the layer')
    else:
        page.note(f'{word} can do nothing here but wait')
        page.help('leave the line out, or write it where it happened, or mend the layer')


def broken_end(page, traced, ledger, end, said, rest):
    """An end that isn't true, or lines behind it that are others."""
    left = [j for j in range(len(traced.plan.jobs)) if j not in ledger.finished]
    if traced.number == end:
        lines = ', '.join(str(page.at(traced.plan.jobs[j].line)) for j in left[:8]) + (' ..' if len(left) > 8 else '')
        page.mark(end, f'{len(left)} are left without a `finish`: lines {lines}' if left else 'all are finished')
        page.help(f'write `unfinished {len(left)}`' if left else 'write `finished`, and then the answers and the buffers')
        return
    page.mark(traced.number, 'nothing stands behind `unfinished`' if left else 'another line belongs here')
    page.help('leave out what stands behind it' if left else 'write the answers in the order of the script, and then the '
              'buffers as the applied commands leave them: `vq --rounds` shows the form')
