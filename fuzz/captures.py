#!/usr/bin/env python3
"""A slow checker of captures, by the definition: the closure of the order, the first fault, the first race.

captures.py [--memory] [FILE]
                          prints the verdict on a capture (standard input), or that with memory; status 0 for `ordered`,
                          else 2
captures.py --rows        checks the rows of capture_rows.py, that each fault has one, and those of docs/CAPTURES.md
captures.py [--memory] --beside VQC --seconds N [--seed S]
                          judges the rows, examples/captures and random captures for so long, and compares each verdict
                          and status with those of a program; or the verdicts with memory with those of its word --memory

`docs/CAPTURES.md` has the format and the definition. Everything is asked again for each line: it is for short captures.
"""
import collections
import os
import re
import subprocess
import sys
import time

LOGICAL = ['indirect', 'input', 'vertex', 'early', 'fragment', 'late', 'color']
WORDS = LOGICAL + ['compute', 'copy', 'host', 'other']
STAGES = ['begin'] + WORDS + ['end']
ACCESSES = ['read', 'write', 'index', 'attribute', 'uniform', 'sampled', 'storage-read', 'storage-write', 'attachment']
READS = frozenset(ACCESSES) - {'write', 'storage-write'}
KINDS = ['syntax', 'order', 'number', 'stages', 'name', 'twice', 'range', 'no signal']
NAME = re.compile(rb'[A-Za-z_][A-Za-z0-9_]{0,15}\Z')
EVERYTHING = frozenset(STAGES)

# The places of lines, by their first word and how many words they have. `new` declares a name; `thread` may.
OUTSIDE = {
    ('queue', 2): ['new'], ('binary', 2): ['new'], ('fence', 2): ['new'], ('event', 2): ['new'],
    ('timeline', 3): ['new', 'number'], ('resource', 3): ['new', 'number'], ('gone', 2): ['ended'],
    ('thread', 2): ['thread'], ('after', 2): ['of thread'], ('submit', 2): ['of queue'], ('hand', 2): ['new'],
    ('submit', 3): ['of queue', 'of hand'], ('signal', 3): ['of timeline', 'number'],
    ('saw', 3): ['of timeline', 'number'], ('saw', 2): ['of fence'], ('idle', 2): ['of queue'],
    ('read', 4): ['of resource', 'number', 'number'], ('write', 4): ['of resource', 'number', 'number'],
    ('cut', 1): []}
INSIDE = {
    ('wait', 4): ['of timeline', 'number', 'stages'], ('wait', 3): ['of binary', 'stages'],
    ('read', 5): ['of resource', 'number', 'number', 'some stages'],
    ('write', 5): ['of resource', 'number', 'number', 'some stages'], ('next', 1): [],
    ('barrier', 3): ['stages', 'stages'], ('barrier', 6): ['stages', 'stages', 'of resource', 'number', 'number'],
    ('set', 3): ['of event', 'stages'], ('await', 3): ['of event', 'stages'],
    ('signal', 4): ['of timeline', 'number', 'stages'], ('signal', 3): ['of binary', 'stages'],
    ('fence', 2): ['of fence'], ('end', 1): []}
PARTS = {'wait': 1, 'read': 2, 'write': 2, 'next': 2, 'barrier': 2, 'set': 2, 'await': 2, 'signal': 3, 'fence': 4,
         'end': 5}
DECLARE = ('queue', 'binary', 'fence', 'event', 'timeline', 'resource')

Step = collections.namedtuple('Step', 'line verb things numbers scopes kinds queue thread command inside')
Thing = collections.namedtuple('Thing', 'kind line')


class Faulty(Exception):
    pass


# Words

def numeral(word):
    """The number of a numeral of 64 bits, or None."""
    if re.fullmatch(rb'0x[0-9A-Fa-f]{1,16}', word):
        return int(word, 16)
    if re.fullmatch(rb'[0-9]{1,20}', word) and int(word) < 2 ** 64:
        return int(word)
    return None


def scope(word):
    """The stages of a word, or None. Of accesses behind a colon `kinds` tells."""
    stages, *accesses = word.decode('latin-1').split(':')
    if len(accesses) > 1 or (accesses and (stages == 'none' or set(accesses[0].split('+')) - set(ACCESSES))):
        return None
    if stages in ('all', 'none'):
        return EVERYTHING if stages == 'all' else frozenset()
    found = frozenset(stages.split('+'))
    return None if found - set(WORDS) else found


def kinds(word):
    """The kinds of accesses that a word names behind its stages."""
    accesses = word.decode('latin-1').partition(':')[2]
    return frozenset(accesses.split('+')) if accesses else frozenset()


def some_stages(word):
    """The stages of an access, or None."""
    found = scope(word)
    return (found & set(WORDS)) or None if found is not None else None


def is_earlier(s, t):
    """Whether a stage is logically earlier than another."""
    if s in LOGICAL and t in LOGICAL:
        return LOGICAL.index(s) < LOGICAL.index(t)
    return (s, t) == ('indirect', 'compute')


def earlier(stages):
    return {s for s in STAGES if s in stages or any(is_earlier(s, t) for t in stages)} | {'begin'}


def later(stages):
    return {s for s in STAGES if s in stages or any(is_earlier(t, s) for t in stages)} | {'end'}


# What releases a wait: the lines above it that do.

def releases(step, above):
    """The lines that release a line, or None where it waits for none."""
    if step.verb in ('wait', 'saw') and step.numbers:
        timeline = step.things[0]
        initial = next(s.numbers[0] for s in above if s.line == timeline)
        if step.numbers[0] <= initial:
            return None
        return [s.line for s in above
                if s.verb == 'signal' and s.numbers and s.things[0] == timeline and s.numbers[0] >= step.numbers[0]][:1]
    if step.verb == 'wait':
        last = max([s.line for s in above if s.verb == 'wait' and s.things[0] == step.things[0]], default=0)
        return [s.line for s in above if s.verb == 'signal' and s.things[0] == step.things[0] and s.line > last]
    if step.verb == 'saw':
        return [s.line for s in above if s.verb == 'fence' and s.inside and s.things[0] == step.things[0]][-1:]
    if step.verb == 'await':
        mine = (step.things[0], step.queue)
        return [s.line for s in above if s.verb == 'set' and (s.things[0], s.queue) == mine][-1:]
    return None


# Reading

class Reader:
    """What the lines so far leave: their steps, the names, the host thread, the open batch."""

    def __init__(self):
        self.steps, self.names, self.thread = [], {}, 0
        self.queue, self.part, self.command = None, 0, 0

    def known(self, place, word):
        thing = self.names.get(word)
        if place == 'thread':
            return thing is None or thing.kind == 'thread'
        if place == 'ended':
            return thing is not None and thing.line != self.thread
        return thing is not None and thing.kind == place[3:]

    def tests(self, verb, at):
        """A test for each kind of fault that words alone have, in their order."""
        names = [(place, word) for place, word in at if place in ('new', 'thread', 'ended') or place.startswith('of ')]
        part = PARTS[verb] if self.queue is not None else 0
        yield 'syntax', all(NAME.match(word) for _, word in names)
        yield 'order', part >= self.part and not part == self.part == 4
        yield 'number', all(numeral(word) is not None for place, word in at if place == 'number')
        yield 'stages', all({'stages': scope, 'some stages': some_stages}[place](word) is not None
                            for place, word in at if place.endswith('stages'))
        yield 'name', all(self.known(place, word) for place, word in names if place != 'new')
        yield 'twice', all(word not in self.names for place, word in names if place == 'new')

    def take(self, line, words):
        """Takes a line that has words."""
        if any(b != 9 and not 32 <= b <= 126 for word in words for b in word):
            raise Faulty('syntax')
        verb = words[0].decode()
        places = (OUTSIDE if self.queue is None else INSIDE).get((verb, len(words)))
        if places is None:
            raise Faulty('syntax')
        at = list(zip(places, words[1:]))
        for kind, passes in self.tests(verb, at):
            if not passes:
                raise Faulty(kind)
        step = self.step(line, verb, at)
        self.check(step)
        self.keep(step, at)

    def step(self, line, verb, at):
        things = [self.names[word].line if word in self.names else line
                  for place, word in at if place != 'new' and (place in ('thread', 'ended') or place.startswith('of '))]
        numbers = [numeral(word) for place, word in at if place == 'number']
        scopes = [(some_stages if place == 'some stages' else scope)(word) for place, word in at if 'stages' in place]
        named = [kinds(word) for place, word in at if 'stages' in place]
        inside = self.queue is not None
        queue = self.queue if inside else things[0] if verb in ('submit', 'idle') else None
        silent = inside or verb in DECLARE or verb == 'gone' or (verb == 'submit' and len(things) == 2)
        thread = None if silent else things[0] if verb == 'thread' else self.thread
        command = self.command if inside and verb in ('read', 'write') else None
        return Step(line, verb, things, numbers, scopes, named, queue, thread, command, inside)

    def check(self, step):
        """The faults that more than words decide."""
        touched = access(step)
        if step.verb == 'resource' and step.numbers[0] == 0:
            raise Faulty('range')
        if touched:
            resource, first, last, _ = touched
            length = next(s.numbers[0] for s in self.steps if s.line == resource)
            if first == last or last > length:
                raise Faulty('range')
        if releases(step, self.steps) == []:
            raise Faulty('no signal')

    def keep(self, step, at):
        self.steps.append(step)
        for place, word in at:
            if place == 'new' or (place == 'thread' and word not in self.names):
                self.names[word] = Thing(step.verb, step.line)
            if place in ('ended', 'of hand'):
                del self.names[word]
        if step.verb == 'thread':
            self.thread = step.things[0]
        if step.verb == 'submit':
            self.queue, self.part, self.command = step.things[0], 1, step.line
        elif step.inside:
            self.part = PARTS[step.verb]
            if step.verb in ('next', 'barrier', 'set', 'await'):
                self.command = step.line
            if step.verb == 'end':
                self.queue, self.part = None, 0


def read(text):
    """The steps of the lines above the first faulty one, and that fault."""
    reader = Reader()
    for line, raw in enumerate(text.split(b'\n')[:-1], 1):
        words = [word for word in re.split(rb'[ \t]', raw.removesuffix(b'\r').split(b'#')[0]) if word]
        try:
            if words:
                reader.take(line, words)
        except Faulty as fault:
            return reader.steps, (line, str(fault))
    return reader.steps, None


# Order

def access(step):
    """The resource, the first unit, the one behind the last, and whether it writes; or None."""
    if step.verb in ('read', 'write'):
        first, length = step.numbers
        return step.things[0], first, first + length, step.verb == 'write'
    if step.verb == 'barrier' and step.things:
        first, length = step.numbers
        return step.things[0], first, first + length, True
    return None


def points(step):
    """A point for each stage of a command's access, else one."""
    return [(step, stage) for stage in step.scopes[0]] if step.command is not None else [(step, None)]


def takes(point):
    step, stage = point
    if stage:
        return {stage}
    if step.inside and step.verb in ('signal', 'set', 'barrier'):
        return earlier(step.scopes[0])
    return EVERYTHING if (step.inside and step.verb == 'fence') or step.verb == 'idle' else set()


def gives(point):
    step, stage = point
    if stage:
        return {stage}
    if step.verb == 'submit':
        return EVERYTHING
    return later(step.scopes[-1]) if step.inside and step.verb in ('wait', 'await', 'barrier') else set()


def is_direct(x, y, above):
    """Whether a point is ordered directly before another, `above` being the steps above that one."""
    a, b = x[0], y[0]
    if a.line >= b.line:
        return False
    one_queue = a.queue is not None and a.queue == b.queue
    if one_queue and not (x[1] and y[1]) and set(gives(x)) & set(takes(y)):
        return True
    is_operation = a.verb == 'submit' or (a.inside and a.verb in ('wait', 'signal', 'fence'))
    if one_queue and is_operation and (b.verb == 'idle' or (b.inside and b.verb in ('signal', 'fence'))):
        return True
    if a.line in (releases(b, above) or []) or (b.verb == 'submit' and b.things[1:] == [a.line]):
        return True
    if a.thread is not None and (a.thread == b.thread or (b.verb == 'after' and b.things[0] == a.thread)):
        return True
    return 'cut' in (a.verb, b.verb)


def before(steps):
    """For each point, by its line and stage, the points that a path leads from."""
    every, found = [point for step in steps for point in points(step)], {}
    for y in every:
        above = [s for s in steps if s.line < y[0].line]
        direct = [x for x in every if is_direct(x, y, above)]
        found[y[0].line, y[1]] = {(x[0].line, x[1]) for x in direct}.union(*(found[x[0].line, x[1]] for x in direct))
    return found


def conflict(a, b):
    """Whether the accesses of two steps share a unit that one of them writes, and aren't of one command."""
    x, y = access(a), access(b)
    if not x or not y or x[0] != y[0] or (a.command is not None and a.command == b.command):
        return False
    return x[1] < y[2] and y[1] < x[2] and (x[3] or y[3])


def is_ordered(a, b, order):
    """Whether each point of a step is before each of another's, by the closure of the order."""
    return all((x[0].line, x[1]) in order[y[0].line, y[1]] for x in points(a) for y in points(b))


def last_pair(steps, test):
    """The lines of the pair that is named: the least second one, and then the greatest first one."""
    for b in steps:
        for a in reversed([s for s in steps if s.line < b.line]):
            if conflict(a, b) and test(a, b):
                return a.line, b.line
    return None


def first_race(steps, order):
    """The lines of the race that is named, or None."""
    return last_pair(steps, lambda a, b: not is_ordered(a, b, order))


# Memory

def has_write(named, own):
    """Whether the kinds of a scope have a write of some kinds."""
    return not named or 'write' in named or ('storage-write' in named
                                             and ('storage-write' in own or 'write' not in own))


def has_read(named, own):
    """Whether the kinds of a scope have a read of some kinds."""
    reads, mine = named & READS, own & READS
    return not named or 'read' in reads or bool(reads & mine) or bool(reads and not mine)


def makes_available(p, x):
    """Whether the first access scope of a point has a write that is directly before it."""
    step = p[0]
    if step.inside and step.verb in ('barrier', 'set'):
        return x[1] in step.scopes[0] and has_write(step.kinds[0], x[0].kinds[0])
    return True


def makes_visible(q, y):
    """Whether the second access scope of a point has a read that the point is directly before."""
    step = q[0]
    if step.inside and step.verb in ('barrier', 'await'):
        return y[1] in step.scopes[-1] and has_read(step.kinds[-1], y[0].kinds[0])
    return True


class Memory:
    """Where writes are available and visible."""

    def __init__(self, steps, order):
        self.order = order
        self.above = {s.line: [t for t in steps if t.line < s.line] for s in steps}
        self.every = [point for step in steps for point in points(step)]

    def is_before(self, x, y):
        return (x[0].line, x[1]) in self.order[y[0].line, y[1]]

    def is_direct(self, x, y):
        return is_direct(x, y, self.above[y[0].line])

    def is_made_available(self, x, p):
        return self.is_direct(x, p) and makes_available(p, x)

    def available_at(self, x):
        """The points at which a write is available: of the host and of a transition, as it comes."""
        return [x] * (x[1] is None) + [p for p in self.every if self.is_made_available(x, p)]

    def is_available_to(self, x, y):
        return self.is_made_available(x, y) or any(self.is_before(p, y) for p in self.available_at(x))

    def is_visible_to(self, x, y):
        ways = [q for q in self.every if self.is_direct(q, y) and makes_visible(q, y)]
        return any(p == q or self.is_before(p, q) for p in self.available_at(x) for q in ways)

    def is_unseen(self, a, b):
        """Whether an access of a device is ordered behind a write and doesn't see it."""
        if not access(a)[3] or not b.inside or not is_ordered(a, b, self.order):
            return False
        delivered = self.is_available_to if access(b)[3] else self.is_visible_to
        return not all(delivered(x, y) for x in points(a) for y in points(b))


def named_first(race, unseen):
    """The line on what ends first; a race before an unseen write."""
    if unseen and not (race and race[1] <= unseen[1]):
        return 'unseen: lines %d and %d' % unseen
    return 'race: lines %d and %d' % race if race else None


def verdict(text, memory=False):
    """The line that a checker writes of a capture."""
    steps, fault = read(text)
    order = before(steps)
    unseen = last_pair(steps, Memory(steps, order).is_unseen) if memory else None
    named = named_first(first_race(steps, order), unseen)
    return named or ('error: %s: line %d' % (fault[1], fault[0]) if fault else 'ordered')


def documented(kind='capture'):
    """Rows of the document: each fence of a kind, with the output behind it."""
    page = os.path.join(os.path.dirname(os.path.abspath(__file__)), '..', 'docs', 'CAPTURES.md')
    fences = re.findall(r'```%s\n(.*?)```\n\n```output\n(.*?)\n```' % kind, open(page).read(), re.DOTALL)
    return [('docs/CAPTURES.md', text.encode(), wanted) for text, wanted in fences]


def check_rows():
    """Checks the rows; each kind of fault has one."""
    from capture_rows import MEMORY_ROWS, ROWS
    rows = ROWS + documented()
    wrong = [(rule, text, wanted, verdict(text)) for rule, text, wanted in rows if verdict(text) != wanted]
    memory = MEMORY_ROWS + documented('memory')
    wrong += [(rule, text, wanted, verdict(text, True)) for rule, text, wanted in memory if verdict(text, True) != wanted]
    for rule, text, wanted, got in wrong:
        print(f'{rule}: {got}, not {wanted}, of\n{text.decode("latin-1")}')
    missing = [kind for kind in KINDS if not any(wanted.startswith(f'error: {kind}:') for _, _, wanted in rows)]
    print(f'{len(rows + memory)} rows, {len(wrong)} wrong' + ''.join(f', no row for {kind}' for kind in missing))
    return 1 if wrong or missing else 0


def examples():
    """Rows of the captures in examples/captures, with what is said of each."""
    folder = os.path.join(os.path.dirname(os.path.abspath(__file__)), '..', 'examples', 'captures')
    names = [os.path.join(folder, name) for name in sorted(os.listdir(folder)) if name.endswith('.cap')]
    return [(name, open(name, 'rb').read(), open(name[:-3] + 'out').read().strip()) for name in names]


def differs(command, name, text, wanted):
    """Whether a program says something else of a capture, which is then printed."""
    ran = subprocess.run(command, input=text, capture_output=True, timeout=60)
    if (ran.stdout.decode('latin-1'), ran.returncode) == (wanted + '\n', 0 if wanted == 'ordered' else 2):
        return False
    print(f'{name}: {ran.stdout!r}, status {ran.returncode}, not {wanted}, of\n{text.decode("latin-1")}')
    return True


def beside(program, seconds, seed, memory):
    """Compares the program's verdicts on rows, examples and random captures with those of the definition."""
    from capture_rows import MEMORY_ROWS, ROWS
    from random_captures import capture, capture_with_kinds
    command = [program, '--memory'] if memory else [program]
    rows = MEMORY_ROWS + documented('memory') if memory else ROWS + documented() + examples()
    if any([differs(command, rule, text, wanted) for rule, text, wanted in rows]):
        return 1
    end, count, kinds = time.monotonic() + seconds, 0, collections.Counter()
    while time.monotonic() < end:
        text = (capture_with_kinds if memory else capture)(seed + count)
        wanted = verdict(text, memory)
        if differs(command, f'seed {seed + count}', text, wanted):
            return 1
        kinds[wanted.split(':')[0] if not wanted.startswith('error') else wanted.split(': line')[0]] += 1
        count += 1
    print(f'{count} captures agree: ' + ', '.join(f'{n} {kind}' for kind, n in kinds.most_common()))
    return 0


def main(arguments):
    if arguments == ['--rows']:
        return check_rows()
    memory = arguments[:1] == ['--memory']
    files = arguments[memory:]
    if files[:1] == ['--beside'] and files[2:3] == ['--seconds'] and len(files) in (4, 6):
        return beside(os.path.abspath(files[1]), float(files[3]), int(files[5]) if files[4:] else 1, memory)
    if len(files) > 1 or files[:1] == ['--help']:
        print(__doc__.strip())
        return 0 if arguments == ['--help'] else 2
    text = open(files[0], 'rb').read() if files else sys.stdin.buffer.read()
    line = verdict(text, memory)
    print(line)
    return 0 if line == 'ordered' else 2


if __name__ == '__main__':
    sys.exit(main(sys.argv[1:]))
