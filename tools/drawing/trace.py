"""A trace, as `vq --replay` prints it or as another layer writes it: its turns, and what each point carries."""
import re

TURN = re.compile(r'(\d{1,20}) (host|[SR]:[A-Za-z_]\w{0,15}) (.+)')
HEXADECIMAL = re.compile(r'0x[0-9a-fA-F]{1,16}')
SIGNAL = r'[A-Za-z_]\w{0,15} \d+'
EVENT = re.compile(
    r'[-.]|(submit|release|start|apply|finish) \d+'
    rf'|take {SIGNAL} (fresh|reused) \d+|bind {SIGNAL} \d+|(refer|look|unref) \d+ {SIGNAL}|(signal|complete) {SIGNAL}'
    r'|free \d+|answer \d+ (ok|timeout|not-ready|value \d+)')
END = re.compile(r'finished|unfinished \d+')


class NoTrace(Exception):
    """Why a text is no trace."""


class Turn:
    """Who moved at which turn, and the words of the event; a run of turns that didn't move counts as one.

    Turns are counted from 1; `written` is the number that stands in the trace, and `last_written` that of a run's last.
    """

    def __init__(self, number, written, actor, words):
        self.number, self.last, self.actor, self.words = number, number, actor, words
        self.written = self.last_written = written

    @property
    def is_idle(self):
        return self.words[0] in '-.'


class Point:
    """The bars and references of a point: (from, to, state, what it carries) and (from, to, actor)."""

    def __init__(self):
        self.bars, self.references, self.carried, self.state, self.since = [], [], None, None, None
        self.held = []

    def becomes(self, state, turn, carried=None):
        if self.state:
            self.bars.append((self.since, turn, self.state, self.carried))
        self.state, self.since = state, turn
        if carried:
            self.carried = carried

    def give_back(self, actor, turn):
        held = next(pair for pair in self.held if pair[1] == actor)
        self.held.remove(held)
        self.references.append((held[0], turn, actor))


def plain(line):
    """A line's words with one space between two, and numbers in decimal; without a comment."""
    words = line.removesuffix('\r').split('#')[0].replace('\t', ' ').split(' ')
    return ' '.join(str(int(word, 16)) if HEXADECIMAL.fullmatch(word) else word for word in words if word)


def read_trace(text):
    """The turns of a trace and its last line; raises NoTrace for another text."""
    if not text:
        raise NoTrace('it is empty')
    turns, before = [], -1
    for number, line in enumerate(map(plain, text.split('\n')), 1):
        if END.fullmatch(line):
            return turns, line
        if not line:
            continue
        turn = TURN.fullmatch(line)
        if not turn or not EVENT.fullmatch(turn[3]):
            raise NoTrace(f'line {number} is no turn')
        written = int(turn[1])
        if written <= before:
            raise NoTrace(f'line {number} is turn {written}, after turn {before}')
        turns.append(Turn(len(turns) + 1, written, turn[2], turn[3].split()))
        before = written
    raise NoTrace('it has no line `finished` or `unfinished N`')


def folded(turns):
    """The turns, where those of one actor that don't move, one after another, are one."""
    found = []
    for turn in turns:
        if found and turn.is_idle and (found[-1].actor, found[-1].words) == (turn.actor, turn.words):
            found[-1].last, found[-1].last_written = turn.number, turn.written
        else:
            found.append(turn)
    return found


def points_of(turns, end):
    """What each point carries, by the events on it; raises NoTrace where an event doesn't fit those before it."""
    points, of_signal = {}, {}
    for turn in turns:
        try:
            take_event(points, of_signal, turn)
        except (KeyError, StopIteration):
            raise NoTrace(f'turn {turn.written} doesn\'t fit those before it') from None
    for point in points.values():
        point.becomes(None, end)
        point.references += [(since, end, actor) for since, actor in point.held]
    return points


def take_event(points, of_signal, turn):
    word, *rest = turn.words
    if word == 'take':
        point = points.setdefault(int(rest[3]), Point())
        of_signal[rest[0], rest[1]] = point
        point.becomes('taken', turn.number, f'{rest[0]} {rest[1]}')
    elif word in ('bind', 'signal', 'complete'):
        state = {'bind': 'pending', 'signal': 'signaled', 'complete': 'completed'}[word]
        of_signal[rest[0], rest[1]].becomes(state, turn.number)
    elif word == 'free':
        points[int(rest[0])].becomes(None, turn.number)
    elif word == 'refer':
        points[int(rest[0])].held.append((turn.number, turn.actor))
    elif word == 'unref':
        points[int(rest[0])].give_back(turn.actor, turn.number)
