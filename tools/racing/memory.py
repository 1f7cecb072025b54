"""Of an access that doesn't see a write: what stands between, which masks have them, and what would deliver it."""
import collections

from captures import READS, WORDS, earlier, has_read, has_write, kinds, later, scope
from capture_text import batch_at, batches_of, words_of
from orders import Mend, by_semaphore, command_begins

MOST = 4
# A line that comes behind the write, or before the access: which word its scope is, and whether that has them.
Mask = collections.namedtuple('Mask', 'line place has')
# Which word it is, by the first word; -1 is the last one. A signal and a wait have all kinds.
FIRST, SECOND = {'barrier': 1, 'set': 2, 'signal': -1}, {'barrier': 2, 'await': 2, 'wait': -1}
ALL_KINDS = ('signal', 'wait')


class Access:
    """An access of a command: its stages and the kinds that it names; of others there are none."""

    def __init__(self, line):
        words = words_of(line)
        word = words[4].encode() if len(words) == 5 else None
        self.stages = scope(word) & set(WORDS) if word else frozenset()
        self.kinds = kinds(word) if word else frozenset()
        self.is_write = words[0] != 'read'

    def needs(self):
        """A kind that a mask has to have for it."""
        if self.is_write:
            return 'storage-write' if self.kinds & {'write', 'storage-write'} == {'storage-write'} else 'write'
        return next(iter(sorted(self.kinds & READS)), 'read')


def masks(lines, first, second, at, places, reach, has_kind):
    """The lines behind the first one up to the second one that have a scope at these places, and reach an access there,
    on its queue."""
    batches, access = batches_of(lines), Access(lines[at - 1])
    for batch in batches:
        if batch.queue != batch_at(batches, at).queue:
            continue
        for line in range(max(batch.first + 1, first + 1), min(batch.last, second) + 1):
            words = words_of(lines[line - 1])
            if not words or words[0] not in places:
                continue
            word = words[places[words[0]]].encode()
            named, has_all = scope(word), words[0] in ALL_KINDS
            if reach(named) & access.stages:
                have = access.stages <= (reach(named) if has_all else named)
                yield Mask(line, places[words[0]], have and (has_all or has_kind(kinds(word), access.kinds)))


def behind(lines, first, second):
    """What comes directly behind the write, unless that is available as it comes."""
    is_of_command = Access(lines[first - 1]).stages
    return list(masks(lines, first, second, first, FIRST, earlier, has_write)) if is_of_command else []


def before(lines, first, second):
    """What comes directly before the access, if that reads; a transition may itself make visible what it wrote."""
    is_write, is_transition = Access(lines[second - 1]).is_write, words_of(lines[first - 1])[0] == 'barrier'
    return [] if is_write else list(masks(lines, first - is_transition, second - 1, second, SECOND, later, has_read))


def told(lines, found, place, does, lacks):
    for mask in found:
        text = ' '.join(words_of(lines[mask.line - 1]))
        yield f'line {mask.line} comes {place}, and {does if mask.has else lacks}: {text}'


def notes(lines, first, second):
    """What each of the lines between does with the write, in words."""
    available, visible = behind(lines, first, second), before(lines, first, second)
    if not Access(lines[first - 1]).stages:
        yield f'what line {first} wrote is available as it comes'
    yield from told(lines, available[:MOST], f'behind line {first}', 'makes its write available',
                    'doesn\'t make its write available')
    yield from told(lines, visible[-MOST:], f'before line {second}', 'makes visible to it what is available',
                    'doesn\'t make visible to it what is available')
    left = len(available[MOST:]) + len(visible[:-MOST])
    if left:
        yield f'{left} more lines come behind line {first} or before line {second}'


def widened(word, access):
    """A scope that has an access too."""
    named, _, own = word.partition(':')
    if named != 'all':
        named = '+'.join(stage for stage in WORDS if stage in access.stages or stage in named.split('+'))
    if word != 'none' and not own:
        return named
    own = own.split('+') if own else []
    return f'{named}:{"+".join(own + [access.needs()] * (access.needs() not in own))}'


def changed(lines, changes):
    """The lines with words in the place of others."""
    new = {}
    for line, place, word in changes:
        words = new.get(line, words_of(lines[line - 1]))
        new[line] = [*words[:place], word, *words[place + 1:]]
    return {line: ' '.join(words) for line, words in new.items()}


def wider(lines, found, access):
    """The masks that lack an access, with it."""
    return [(mask.line, mask.place, widened(words_of(lines[mask.line - 1])[mask.place], access))
            for mask in found if not mask.has and mask.place > 0]


def candidates(lines, first, second):
    """Masks that have the write or the access too, on one side or on both; a barrier, or a semaphore, of its own."""
    write, access = Access(lines[first - 1]), Access(lines[second - 1])
    ones = wider(lines, behind(lines, first, second)[:MOST], write)
    others = wider(lines, before(lines, first, second)[-MOST:], access)
    both = [(one, other) for one in ones for other in others if one[0] <= other[0]]
    for changes in [*((one,) for one in ones + others), *both]:
        text = changed(lines, changes)
        yield Mend('; '.join(f'let line {line} be {words}' for line, words in text.items()), {}, text)
    batches = batches_of(lines)
    one, other = batch_at(batches, first), batch_at(batches, second)
    if one and one.queue == other.queue and write.stages and access.stages:
        at = command_begins(lines, second)
        text = f'barrier {widened("none", write)} {widened("none", access)}'
        yield Mend(f'{text}    (before line {at})', {at: [text]}, {})
    if one and one != other:
        yield from by_semaphore(lines, one, other)
