"""What would order two accesses that race: lines that are put into the capture, or changed there, and judged again."""
import collections

from capture_text import batch_at, batches_of, pair_of, words_of

# A mend in words, and the capture with it: lines that come before others, or in the place of one.
Mend = collections.namedtuple('Mend', 'says before instead')
COMMANDS_END = ('next', 'barrier', 'set', 'await', 'submit', 'wait')


def stages_of(words):
    """The stages of a line of a batch: its last word, or of a transition both."""
    if words[0] == 'barrier':
        return words[1].split(':')[0], words[2].split(':')[0]
    return words[-1].split(':')[0], words[-1].split(':')[0]


def command_begins(lines, line):
    """The first line of the command that an access stands in."""
    while line > 1 and words_of(lines[line - 2])[:1] not in [[word] for word in COMMANDS_END]:
        line -= 1
    return line


def by_barrier(lines, first, second):
    """A barrier before the second command, where both stand on one queue."""
    source, target = stages_of(words_of(lines[first - 1]))[1], stages_of(words_of(lines[second - 1]))[0]
    at = command_begins(lines, second) if words_of(lines[second - 1])[0] != 'barrier' else second
    if words_of(lines[second - 1])[0] == 'barrier':
        words = words_of(lines[second - 1])
        text = ' '.join(['barrier', source, *words[2:]])
        yield Mend(f'let the barrier of line {second} wait for the stages of line {first}: {text}', {}, {second: text})
        return
    text = f'barrier {source} {target}'
    yield Mend(f'{text}    (before line {at})', {at: [text]}, {})


def by_wider_stages(lines, one, other, second):
    """The waits of the second batch for what the first one signals, with more stages, on either side."""
    target = stages_of(words_of(lines[second - 1]))[0]
    signals = {tuple(words_of(lines[k - 1])[1:-1])[:1]: k for k in range(one.first, one.last)
               if words_of(lines[k - 1])[:1] == ['signal']}
    for k in range(other.first + 1, other.last):
        words = words_of(lines[k - 1])
        if words[:1] != ['wait']:
            continue
        if words[-1] != 'all':
            wider = 'all' if 'none' in (words[-1], target) else f'{words[-1]}+{target}'
            text = ' '.join([*words[:-1], wider])
            yield Mend(f'let line {k} hold back the stages of line {second} too: {text}', {}, {k: text})
        signal = signals.get(tuple(words[1:2]))
        if signal and words_of(lines[signal - 1])[-1] != 'all':
            text = ' '.join([*words_of(lines[signal - 1])[:-1], 'all'])
            yield Mend(f'let line {signal} signal behind all stages: {text}', {}, {signal: text})


def by_semaphore(lines, one, other):
    """A semaphore of its own between the two batches."""
    end = one.last - (words_of(lines[one.last - 2])[:1] == ['fence'])
    yield Mend(f'let the batch of line {other.first} wait for that of line {one.first}: signal RACE all    (before '
               f'line {end}), wait RACE all    (behind line {other.first})',
               {1: ['binary RACE'], end: ['signal RACE all'], other.first + 1: ['wait RACE all']}, {})


def by_host(lines, one, second):
    """The host waits before it touches what a batch touched."""
    yield Mend(f'let the host wait for the queue {one.queue}: idle {one.queue}    (before line {second})',
               {second: [f'idle {one.queue}']}, {})


def candidates(lines, first, second):
    batches = batches_of(lines)
    one, other = batch_at(batches, first), batch_at(batches, second)
    if one and other and one.queue == other.queue:
        yield from by_barrier(lines, first, second)
    if one and other and one != other:
        yield from by_wider_stages(lines, one, other, second)
        yield from by_semaphore(lines, one, other)
    if one and not other:
        yield from by_host(lines, one, second)


def applied(lines, mend):
    """The capture with a mend, and where each old line stands in it."""
    text, places = [], {}
    for number, line in enumerate(lines, 1):
        text += [more.encode() for more in mend.before.get(number, [])]
        text.append(mend.instead[number].encode() if number in mend.instead else line)
        places[number] = len(text)
    return b''.join(line + b'\n' for line in text), places


def then_of(pair, places):
    """What is left behind a mend, by the lines of the capture as it was."""
    if not pair:
        return 'ordered'
    old = {place: number for number, place in places.items()}
    first, second = old.get(pair.first, '?'), old.get(pair.second, '?')
    return f'lines {first} and {second} race' if pair.kind == 'race' else f'line {second} doesn\'t see line {first}'


def mends_of(judge, lines, first, second, tried):
    """Of mends those after which these two lines are no longer named, each with what the checker then says."""
    for mend in tried:
        text, places = applied(lines, mend)
        said = judge(text)
        left = pair_of(said)
        if said == b'ordered\n' or (left and left.second >= places[second]
                                    and (left.first, left.second) != (places[first], places[second])):
            yield mend, then_of(left, places)
