"""A second reading of docs/LANGUAGE.md and docs/ONE_RESULT.md: what vq writes for an input, and with which status.

It shares nothing with the program but the pages. `answer(data)` gives (status, text), the text being that of the slow
run; `is_output(data, text)` says of any text whether the script may give it; `replay(data)` gives (status, text) for
`--replay`, with the turns of turns.py. This file reads lines; what they ask for is in lowering.py, what comes before
what in order.py, what the answers may be in windows.py, and what a text may be in outputs.py. All is plain and slow:
needs are looked up by scans, what happens before what is a set of jobs for each job, and little is kept that can be
counted again.
"""
import re

from canonical import canonical
from lowering import Plan, Refusal
from order import Order, final_buffers
from outputs import Outputs
from turns import Game
from windows import Windows

LIMIT = 4_194_304
NAME = re.compile(rb'[A-Za-z_][A-Za-z0-9_]{0,15}')
DECIMAL = re.compile(rb'[0-9]{1,20}')
HEXADECIMAL = re.compile(rb'0x[0-9a-fA-F]{1,16}')
ACTOR = re.compile(rb'host|[SR]:[A-Za-z_][A-Za-z0-9_]{0,15}')
OTHER = re.compile(rb'[^\t\x20-\x7e]')
DIGITS = re.compile(rb'([0-9a-fA-F]{2})*')
# The forms of lines by their section: a word as it stands, or what its place takes. `pairs` stands for one or more
# timelines, each with a numeral.
OUTSIDE = [
    ('buffer', [b'buffer', 'new', 'numeral']),
    ('timeline', [b'timeline', 'new', 'numeral']),
    ('binary', [b'binary', 'new']),
    ('fence', [b'fence', 'new']),
    ('queue', [b'queue', 'new', b'immediate']),
    ('queue', [b'queue', 'new', b'deferred']),
    ('queue', [b'queue', 'new', b'threaded']),
    ('submit', [b'submit', 'queue name']),
    ('host signal', [b'host', b'signal', 'timeline name', 'numeral']),
    ('host wait all', [b'host', b'wait', b'all', 'pairs']),
    ('host wait any', [b'host', b'wait', b'any', 'pairs']),
    ('host poll all', [b'host', b'poll', b'all', 'pairs']),
    ('host poll any', [b'host', b'poll', b'any', 'pairs']),
    ('host read', [b'host', b'read', 'timeline name']),
    ('host fence wait', [b'host', b'fence', b'wait', 'fence name']),
    ('host fence poll', [b'host', b'fence', b'poll', 'fence name']),
    ('host fence reset', [b'host', b'fence', b'reset', 'fence name']),
    ('host idle', [b'host', b'idle']),
]
# Only the first line with words may name the version.
FIRST = [('version', [b'version', b'2'])]
# In version 2 a wait may say from which command on it holds its batch back.
HELD = [
    ('wait', [b'wait', 'timeline name', 'numeral', b'from', 'numeral']),
    ('wait', [b'wait', 'binary name', b'from', 'numeral']),
]
INSIDE = [
    ('wait', [b'wait', 'timeline name', 'numeral']),
    ('wait', [b'wait', 'binary name']),
    ('fill_whole', [b'fill', 'buffer name', 'numeral', b'whole', 'small numeral']),
    ('fill', [b'fill', 'buffer name', 'numeral', 'numeral', 'small numeral']),
    ('update', [b'update', 'buffer name', 'numeral', 'digits']),
    ('copy', [b'copy', 'buffer name', 'numeral', 'buffer name', 'numeral', 'numeral']),
    ('signal', [b'signal', 'timeline name', 'numeral']),
    ('signal', [b'signal', 'binary name']),
    ('batch_fence', [b'fence', 'fence name']),
    ('end', [b'end']),
]
SCHEDULE = [
    ('turns', ['actor']),
    ('turns', ['actor', 'numeral']),
]
# The places that take a name.
NAMED = ['new'] + [f'{kind} name' for kind in ('buffer', 'timeline', 'binary', 'fence', 'queue')]
DECLARATIONS = ('buffer', 'timeline', 'binary', 'fence', 'queue')
# How many queues and jobs a script of each version has at most.
MOST = {1: (8, 4096), 2: (16, 8192)}
PARTS = {'wait': 1, 'fill_whole': 2, 'fill': 2, 'update': 2, 'copy': 2, 'signal': 3, 'batch_fence': 4, 'end': 5}


class Fault(Exception):
    """The kind of the first fault of a line."""


def numeral(word):
    if HEXADECIMAL.fullmatch(word):
        value = int(word, 16)
    elif DECIMAL.fullmatch(word):
        value = int(word)
    else:
        return None
    return value if value < 2 ** 64 else None


def lines_of(data):
    parts = data.split(b'\n')
    if parts[-1] == b'':
        parts.pop()
    return [part[:-1] if part.endswith(b'\r') else part for part in parts]


class Batch:
    kind = 'batch'

    def __init__(self, line, queue):
        self.line, self.queue = line, queue
        self.waits, self.commands, self.signals, self.fence = [], [], [], None
        # For each wait the number of the first command that it holds back, counted from 1.
        self.held_from = []


class Step:
    """A line of the host: its first words, and its semaphores with their values, None where the line gives none."""
    queue = None

    def __init__(self, line, kind, pairs):
        self.line, self.kind, self.pairs = line, kind, pairs


class Reader:
    def __init__(self, scheduled=False):
        self.scheduled = scheduled
        self.turns_given = None
        self.given_version, self.has_begun = 1, False
        self.names = {}
        self.buffers = []
        self.semaphores = []
        self.queues = []
        self.jobs = []
        self.batch = None
        self.part = self.commands = self.number = 0

    def read(self, line, number):
        self.number = number
        line = line.split(b'#', 1)[0]
        words = [word for word in re.split(rb'[ \t]+', line) if word]
        if not words:
            return
        if OTHER.search(line):
            raise Fault('syntax')
        form, places = self.form(words)
        if form is None:
            raise Fault('syntax')
        # What the places take, without the words that stand for themselves.
        at = [(place, word) for place, word in zip(places, words) if isinstance(place, str)]
        for place, word in at:
            if place in NAMED and not NAME.fullmatch(word) or place == 'actor' and not ACTOR.fullmatch(word):
                raise Fault('syntax')
        if self.is_late(form):
            raise Fault('order')
        if self.batch and (PARTS[form] < self.part or form == 'batch_fence' and self.batch.fence):
            raise Fault('order')
        for place, word in at:
            if place in ('numeral', 'small numeral'):
                value = numeral(word)
                if value is None or (place == 'small numeral' and value >= 2 ** 32):
                    raise Fault('number')
            if place == 'digits' and not DIGITS.fullmatch(word):
                raise Fault('number')
        for place, word in at:
            if place == 'actor' and word != b'host':
                found, queue = self.names.get(word[2:], ('', 0))
                if found != 'queue' or word[:1] == b'S' and self.queues[queue] != b'threaded':
                    raise Fault('name')
            if place.endswith(' name') and self.names.get(word, ('', 0))[0] != place[:-5]:
                raise Fault('name')
        if any(place == 'new' and word in self.names for place, word in at):
            raise Fault('twice')
        if form.startswith('host '):
            self.step(form, words)
        else:
            getattr(self, form)(words)
        self.has_begun = True
        if self.batch:
            self.part = PARTS.get(form, 0)

    def read_all(self, data):
        """Reads a text whole; raises the Refusal of its first faulty line."""
        lines = lines_of(data)
        number = 0
        try:
            for number, line in enumerate(lines, 1):
                self.read(line, number)
            number = len(lines) + 1
            if self.is_open():
                raise Fault('syntax')
        except Fault as fault:
            raise Refusal(f'{fault}: line {number}')

    def is_open(self):
        """Whether something is missing where a text ends here."""
        return bool(self.batch) or self.scheduled and self.turns_given is None

    def is_late(self, form):
        """Whether a line outside a batch stands behind one that has to stand behind it."""
        return form in DECLARATIONS and bool(self.jobs or self.batch)

    def form(self, words):
        for form, places in self.forms():
            if places[0] not in (words[0], 'actor'):
                continue
            if places[-1] == 'pairs':
                places = places[:-1] + ['timeline name', 'numeral'] * max(1, (len(words) - len(places) + 1) // 2)
            if len(places) == len(words) and all(
                    word == place for place, word in zip(places, words) if isinstance(place, bytes)):
                return form, places
        return None, []

    def forms(self):
        if self.batch:
            return INSIDE + (HELD if self.given_version == 2 else [])
        if self.turns_given is not None:
            return SCHEDULE
        return OUTSIDE + ([('schedule', [b'schedule'])] if self.scheduled else []) + ([] if self.has_begun else FIRST)

    def version(self, _):
        self.given_version = 2

    def schedule(self, _):
        self.turns_given = []

    def turns(self, words):
        count = numeral(words[1]) if len(words) == 2 else 1
        if count == 0:
            raise Fault('range')
        if len(self.turns_given) + count > 65536:
            raise Fault('limit')
        who, _, name = words[0].decode().partition(':')
        self.turns_given += [(who, self.names[name.encode()][1] if name else None)] * count

    def buffer(self, words):
        size = numeral(words[2])
        if size == 0:
            raise Fault('range')
        if len(self.buffers) == 64 or sum(held for _, held in self.buffers) + size > 1_048_576:
            raise Fault('limit')
        self.names[words[1]] = ('buffer', len(self.buffers))
        self.buffers.append((words[1], size))

    def semaphore(self, words, kind, initial):
        if len(self.semaphores) == 256:
            raise Fault('limit')
        self.names[words[1]] = (kind, len(self.semaphores))
        self.semaphores.append((kind, initial))

    def timeline(self, words):
        self.semaphore(words, 'timeline', numeral(words[2]))

    def binary(self, words):
        self.semaphore(words, 'binary', 0)

    def fence(self, words):
        self.semaphore(words, 'fence', 0)

    def queue(self, words):
        if len(self.queues) == MOST[self.given_version][0]:
            raise Fault('limit')
        self.names[words[1]] = ('queue', len(self.queues))
        self.queues.append(words[2])

    def submit(self, words):
        if len(self.jobs) == MOST[self.given_version][1]:
            raise Fault('limit')
        self.batch = Batch(self.number, self.names[words[1]][1])

    def step(self, kind, words):
        """A line of the host: behind its kind a name alone, or names each with a value, or nothing."""
        words = words[len(kind.split()):]
        if len(words) == 1:
            pairs = [(words[0], None)]
        else:
            pairs = [(name, numeral(value)) for name, value in zip(words[::2], words[1::2])]
        if len(self.jobs) == MOST[self.given_version][1] or len(pairs) > 16:
            raise Fault('limit')
        self.jobs.append(Step(self.number, kind, [(self.names[name][1], value) for name, value in pairs]))

    def mark(self, words):
        return self.number, self.names[words[1]][1], numeral(words[2]) if len(words) == 3 else None

    def wait(self, words):
        held_from = 1
        if words[-2] == b'from' and len(words) > 3:
            words, held_from = words[:-2], numeral(words[-1])
            if not 1 <= held_from <= 65:
                raise Fault('range')
        if len(self.batch.waits) == 16:
            raise Fault('limit')
        self.batch.waits.append(self.mark(words))
        self.batch.held_from.append(held_from)

    def signal(self, words):
        if len(self.batch.signals) == 16:
            raise Fault('limit')
        self.batch.signals.append(self.mark(words))

    def batch_fence(self, words):
        self.batch.fence = self.number, self.names[words[1]][1], None

    def place(self, name):
        number = self.names[name][1]
        return number, self.buffers[number][1]

    def command(self, *command):
        if self.commands == 8192 or len(self.batch.commands) == 64:
            raise Fault('limit')
        self.commands += 1
        self.batch.commands.append((self.number, command))

    def fill(self, words):
        buffer, held = self.place(words[1])
        offset, size, word = numeral(words[2]), numeral(words[3]), numeral(words[4])
        if offset >= held or offset % 4 or size % 4 or size == 0 or offset + size > held:
            raise Fault('range')
        self.command('write', buffer, offset, word.to_bytes(4, 'little') * (size // 4))

    def fill_whole(self, words):
        buffer, held = self.place(words[1])
        offset, word = numeral(words[2]), numeral(words[4])
        if offset >= held or offset % 4:
            raise Fault('range')
        self.command('write', buffer, offset, word.to_bytes(4, 'little') * ((held - offset) // 4))

    def update(self, words):
        (buffer, held), offset, written = self.place(words[1]), numeral(words[2]), bytes.fromhex(words[3].decode())
        size = len(written)
        if offset >= held or offset % 4 or size % 4 or not 0 < size <= 65536 or offset + size > held:
            raise Fault('range')
        self.command('write', buffer, offset, written)

    def copy(self, words):
        (source, held), (target, room) = self.place(words[1]), self.place(words[3])
        start, place, size = (numeral(words[number]) for number in (2, 4, 5))
        if start >= held or place >= room or size == 0 or start + size > held or place + size > room:
            raise Fault('range')
        if source == target and max(start, place) < min(start, place) + size:
            raise Fault('overlap')
        self.command('copy', source, start, target, place, size)

    def end(self, _):
        if any(held_from > len(self.batch.commands) + 1 for held_from in self.batch.held_from):
            raise Fault('range')
        self.jobs.append(self.batch)
        self.batch = None


class Script:
    """A lawful script, with its plan and its order."""

    def __init__(self, data, scheduled):
        """Raises the Refusal of one that isn't lawful."""
        if len(data) > LIMIT:
            raise Refusal('too long')
        self.reader = Reader(scheduled)
        self.reader.read_all(data)
        self.judge()

    def judge(self):
        """Raises the Refusal of lines that are faultless, but not lawful."""
        self.plan = Plan(self.reader)
        self.order = Order(self.plan)
        self.order.refuse()
        self.windows = Windows(self.plan, self.order)

    def queue_names(self):
        return {queue: name.decode() for name, (kind, queue) in self.reader.names.items() if kind == 'queue'}

    def buffers_text(self):
        text = []
        held = final_buffers(self.plan, self.order, [size for _, size in self.reader.buffers])
        for (name, size), content in zip(self.reader.buffers, held):
            text.append(b'buffer ' + name + b' %d\n' % size)
            text.extend(content[row:row + 16].hex().encode() + b'\n' for row in range(0, size, 16))
        return b''.join(text) + b'end\n'

    def text(self, answers):
        """The text with these answers, by the number of the step."""
        lines = [f'{self.plan.jobs[h].line} {answers[h]}\n' for h in sorted(answers)]
        return ''.join(lines).encode() + self.buffers_text()


def refused(refusal):
    return 2, f'error: {refusal}\n'.encode()


def answer(data):
    """The status and the text of the slow run: the only text where no step of the host looks at what goes on."""
    try:
        script = Script(data, False)
    except Refusal as refusal:
        return refused(refusal)
    return 0, script.text(script.windows.slow_answers())


def is_output(data, text):
    """None where the script may give this text, or why not."""
    try:
        script = Script(data, False)
    except Refusal as refusal:
        return None if text == refused(refusal)[1] else f'the script is refused: {refusal}'
    misfit = Outputs(script).misfit(text)
    return None if misfit is None else misfit.text()


def replay(data):
    try:
        script = Script(data, True)
    except Refusal as refusal:
        return refused(refusal)
    game = Game(script.plan)
    text = game.trace(script.reader.turns_given, script.queue_names())
    return 0, text + (script.text(game.host.answers) if not game.left() else b'')


def rounds(data):
    """(status, text) for `--rounds`."""
    try:
        script = Script(data, False)
    except Refusal as refusal:
        return refused(refusal)
    game = Game(script.plan)
    text, _ = game.rounds(script.queue_names())
    return 0, text + script.text(game.host.answers)


def upgrade(data):
    """(status, text) for `--upgrade`."""
    try:
        Script(data, False)
    except Refusal as refusal:
        return refused(refusal)
    return 0, canonical(data, 2)
