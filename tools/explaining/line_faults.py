"""Faults of one line: what stands there, and what may stand there."""
import itertools
import re

from blocks import IN_THREAD, MOST_OTHER_JOBS, MOST_PAIRS
from blocks import OUTSIDE as OUTSIDE_THREADS
from reading import reader_of
from reference import DECLARATIONS, HELD, INSIDE, MOST, NAME, OUTSIDE, PARTS, SCHEDULE, Fault, lines_of, numeral

PART_NAMES = {1: 'waits', 2: 'commands', 3: 'signals', 4: 'the fence', 5: 'end'}
LIMITS = {
    'buffer': 'at most 64 buffers, and 1,048,576 bytes in all of them together',
    'timeline': 'at most 256 semaphores', 'binary': 'at most 256 semaphores', 'fence': 'at most 256 semaphores',
    'wait': 'at most 16 waits in a batch', 'signal': 'at most 16 signals in a batch',
    'turns': 'at most 65,536 turns in a schedule', 'thread': 'at most 16 queues and threads together',
    'thread_wait': 'at most 16 pairs in a line of a thread, and 1,024 lines of all threads',
    'thread_signal': 'at most 1,024 lines of all threads',
}
# The greatest place of a wait: behind the 64 commands that a batch has at most.
LAST_PLACE = 65
# Bytes at the start of a text that some editors put there.
BYTE_ORDER_MARKS = {b'\xef\xbb\xbf': 'a byte order mark of UTF-8', b'\xff\xfe': 'a byte order mark of UTF-16',
                    b'\xfe\xff': 'a byte order mark of UTF-16'}


class Line:
    """A faulty line: its number, its words, and the reader that has read all lines before it."""

    def __init__(self, page, word):
        self.page, self.at, [self.number] = page, page.at, page.verdict.lines
        self.reader = read_up_to(page.draft.data(), self.number, word)
        # The threads before it, and the one whose block it stands in.
        self.threads = self.reader.threads if word == '--hosts' else []
        self.thread = self.reader.thread_open if word == '--hosts' else None
        self.has_blocks, self.is_audit = word == '--hosts', word == '--audit'
        self.raw = page.draft.lines[self.number - 1] if self.number <= len(page.lines) else b''
        text = self.raw[:-1] if self.raw.endswith(b'\r') else self.raw
        self.text = text.split(b'#', 1)[0]
        self.words = [word for word in re.split(rb'[ \t]+', self.text) if word]
        self.form, self.places = self.reader.form(self.words) if self.words else (None, [])

    @property
    def is_at_end(self):
        """Whether the script ends here: with the text, or at the trace behind it."""
        return self.number > len(self.page.lines) or self.is_audit and self.words == [b'trace']

    def mark(self, text, word=None):
        self.page.mark(self.number, text, word)

    def kind_of(self, name):
        """Whether a name is of a buffer, a timeline and so on; None where it isn't declared."""
        return self.reader.names.get(name, (None, 0))[0]

    def section(self):
        if self.reader.batch:
            return INSIDE + (HELD if self.reader.given_version == 2 else [])
        if self.has_blocks:
            return IN_THREAD if self.thread else OUTSIDE + OUTSIDE_THREADS
        return SCHEDULE if self.reader.turns_given is not None else OUTSIDE

    def is_held_wait(self):
        """Whether the words are those of a wait of version 2."""
        return any(self.words[:1] == [b'wait'] and len(places) == len(self.words) and self.words[-2] == b'from'
                   for _, places in HELD)

    def too_far(self):
        """The waits of the open batch that hold back none of its commands, and not its signals either: their lines."""
        batch = self.reader.batch
        return [line for (line, _, _), held_from in zip(batch.waits, batch.held_from)
                if held_from > len(batch.commands) + 1]

    def held(self, buffer):
        """How many bytes a buffer has."""
        return self.reader.buffers[self.reader.names[buffer][1]][1]

    def ranges(self):
        """The ranges that a command names: the buffer, the first byte, how many."""
        words = self.words
        if self.form == 'fill':
            return [(words[1], numeral(words[2]), numeral(words[3]))]
        if self.form == 'update':
            return [(words[1], numeral(words[2]), len(words[3]) // 2)]
        if self.form == 'copy':
            return [(words[1], numeral(words[2]), numeral(words[5])), (words[3], numeral(words[4]), numeral(words[5]))]
        return []

    def odd_bytes(self):
        return [byte for byte in self.text if not 32 <= byte <= 126 and byte != 9]


def read_up_to(data, number, word):
    """A reader that has read all lines before one."""
    reader = reader_of(word)
    try:
        reader.read_some(lines_of(data)[:number - 1])
    except Fault:
        pass
    reader.number = number
    return reader


def written(form):
    """A form as it is written."""
    return ' '.join(place.decode() if isinstance(place, bytes) else
                    {'new': 'NAME', 'numeral': 'NUMBER', 'small numeral': 'WORD', 'digits': 'HEX', 'actor': 'ACTOR',
                     'pairs': 'TIMELINE VALUE TIMELINE VALUE ..'}.get(place, place.split()[0].upper())
                    for place in form[1])


def explain_line(page, line):
    if line.reader.batch:
        page.show(line.reader.batch.line)
    if line.thread:
        page.show(line.thread.line)
    {'syntax': syntax, 'order': order, 'number': number_fault, 'name': name, 'twice': twice, 'range': out_of_range,
     'overlap': overlap, 'limit': limit}[page.verdict.kind](page, line)


def syntax(page, line):
    if line.is_at_end:
        missing_end(page, line)
    elif line.odd_bytes():
        mark = next((said for start, said in BYTE_ORDER_MARKS.items()
                     if line.number == 1 and line.raw.startswith(start)), None)
        is_return = 13 in line.odd_bytes()
        line.mark(mark or ('a carriage return that no line feed follows ends no line' if is_return else
                           'a byte that is neither printable nor a tab'))
        page.rule('outside comments a line has printable characters of ASCII, and tabs')
        page.help('save the text as ASCII, or as UTF-8 without such a mark' if mark else
                  'end each line with a line feed' if is_return else
                  'take that byte out, or move it into a comment')
    elif line.form:
        wrong = next(at for at, (place, word) in enumerate(zip(line.places, line.words)) if isinstance(place, str) and (
            place == 'actor' or (place == 'new' or place.endswith(' name')) and not NAME.fullmatch(word)))
        line.mark(f'`{line.words[wrong].decode()}` has not the form of its place', wrong)
        if line.form == 'turns':
            page.rule('an actor is `host`, `S:QUEUE` or `R:QUEUE`')
            page.help('write `S:QUEUE` for who submits a threaded queue\'s batches, `R:QUEUE` for who runs a queue\'s')
        else:
            page.rule('a name has 1 to 16 letters, digits and `_`, and begins with no digit')
            page.help('choose another name')
    else:
        unknown_line(page, line)


def missing_end(page, line):
    line.mark('the script ends here' if line.is_audit else 'the text ends here')
    if line.reader.batch:
        page.rule(f'a batch ends with a line `end`; the one of line {line.at(line.reader.batch.line)} is still open')
        page.help('write `end` as the last line')
    elif line.thread:
        page.rule('the block of a thread ends with a line `end`; '
                  f'that of line {line.at(line.thread.line)} is still open')
        page.help('write `end` as the last line')
    else:
        page.rule('with --replay a script has a line `schedule` behind its batches, and then its turns')
        page.help('write `schedule` and the turns, or run the script without --replay')


def alike(forms, words):
    """The forms, as they are written, that begin with as many of the words as any does: at least with the first."""
    begin = [sum(1 for _ in itertools.takewhile(lambda pair: pair[0] == pair[1], zip(places, words)))
             for _, places in forms]
    return [written(form) for form, count in zip(forms, begin) if count and count == max(begin)]


def unknown_line(page, line):
    is_inside, forms = bool(line.reader.batch), line.section()
    place = ('inside a batch' if is_inside else 'in the schedule' if forms is SCHEDULE else
             'in the block of a thread' if line.thread else 'outside a batch')
    same = alike(forms, line.words)
    line.mark(f'no line that stands {place} has these words')
    if line.words[0] == b'version':
        page.rule('the version is said by the line `version 2`, before all other lines with words; without it the script '
                  'is of version 1')
        page.help('write `version 2` as the first line, or take the line out')
        return
    if is_inside and line.is_held_wait():
        page.rule('a wait holds back a part of its batch in version 2 alone')
        page.help('write `version 2` as the first line of the script')
        return
    if same:
        page.rule('lines that begin so here are ' + ', '.join(f'`{text}`' for text in same))
    else:
        firsts = {form[1][0].decode() for form in forms if isinstance(form[1][0], bytes)}
        page.rule(f'lines {place} begin with ' + (', '.join(sorted(firsts)) or
                                                  'an actor, which is `host`, `S:QUEUE` or `R:QUEUE`'))
    others = OUTSIDE if is_inside else INSIDE
    if not same and any(form[1][0] == line.words[0] for form in others):
        page.help('close the batch before it with `end`' if is_inside else 'it belongs inside a batch, behind `submit`')
    elif line.thread:
        page.help('close the block before it with `end`, or let the host do it')
    elif line.words == [b'schedule']:
        page.help('a schedule is read with --replay alone')
    else:
        page.help('compare the line with the tables of docs/LANGUAGE.md')


def order(page, line):
    reader = line.reader
    if (line.form in DECLARATIONS or line.form == 'thread') and not reader.batch:
        what = 'thread' if line.form == 'thread' else 'declaration'
        behind = line.threads and not reader.jobs
        line.mark(f'a {what} behind the first ' + ('thread' if behind else 'batch or host line'))
        page.show(line.threads[0].line if behind else reader.jobs[0].line)
        page.rule('all declarations stand before the first `submit` and the first `host`' +
                  (', and before all blocks of threads, which stand before these too' if line.has_blocks else ''))
    elif line.form == 'batch_fence' and reader.batch.fence:
        line.mark('a second fence')
        page.mark(reader.batch.fence[0], 'the first one')
        page.rule('a batch names one fence at most')
        page.help('take one out, or submit an empty batch behind it that names the other')
        return
    else:
        line.mark(f'belongs to the {PART_NAMES[PARTS[line.form]]}, which stand before the {PART_NAMES[reader.part]}')
        page.rule('a batch has first its waits, then its commands, then its signals, then its fence')
    page.help('move it up')


def number_fault(page, line):
    for at, (place, word) in enumerate(zip(line.places, line.words)):
        value = numeral(word)
        if place in ('numeral', 'small numeral') and value is None:
            line.mark(f'`{word.decode()}` is no number up to 2^64 - 1', at)
        elif place == 'small numeral' and value >= 2 ** 32:
            line.mark(f'`{word.decode()}` is above 2^32 - 1', at)
        elif place == 'digits' and not re.fullmatch(rb'([0-9a-fA-F]{2})*', word):
            line.mark('digits in pairs belong here, two for each byte', at)
    if line.words[0] == b'update' and numeral(line.words[2]) is not None:
        page.rule('the bytes of an update are hexadecimal digits alone, without `0x`, two for each byte')
        page.help('write them so, as `0aff00b1` for four bytes')
        return
    page.rule('a number is decimal, or `0x` and hexadecimal digits; the word of a fill has 32 bits')
    page.help('write such a number')


def name(page, line):
    for at, wanted, text, is_actor in wanted_names(line):
        found = line.kind_of(text)
        if found is None:
            line.mark(f'`{text.decode()}` is not declared', at)
        elif found == 'timeline' and line.form in ('wait', 'signal') and len(line.words) == 2:
            line.mark(f'`{text.decode()}` is a timeline, and its value is missing', at)
        elif found == 'binary' and line.form in ('wait', 'signal') and len(line.words) == 3:
            line.mark(f'`{text.decode()}` is a binary semaphore, and a value stands behind it', at)
        elif found != wanted:
            line.mark(f'`{text.decode()}` is a {found}, and a {wanted} belongs here', at)
        elif is_actor and is_submitted_by_host(line, at):
            line.mark(f'`{text.decode()}` is not threaded, so the host submits its batches', at)
    page.rule('each place takes names of one kind, declared above')
    kind = line.kind_of(line.words[1]) if len(line.words) > 1 else None
    if line.thread:
        page.help('the lines of threads are for timelines alone: declare it above, or correct the name')
    elif line.words[0] in (b'wait', b'signal') and kind == 'timeline':
        page.help(f'a timeline has a value: `{line.words[0].decode()} {line.words[1].decode()} VALUE`')
    elif line.words[0] in (b'wait', b'signal') and kind == 'binary':
        page.help(f'a binary semaphore has no value: `{line.words[0].decode()} {line.words[1].decode()}`')
    elif line.form == 'turns' and line.words[0][2:] in line.reader.names:
        page.help('write `host`: its turns hand on the batches of this queue')
    else:
        page.help('declare it above the first batch, or correct the name')


def wanted_names(line):
    """The names of a line that have to be declared: the word's place, the kind, the name, whether it is an actor's."""
    for at, (place, word) in enumerate(zip(line.places, line.words)):
        if place == 'actor' and word != b'host':
            yield at, 'queue', word[2:], True
        elif isinstance(place, str) and place.endswith(' name'):
            yield at, place[:-5], word, False


def is_submitted_by_host(line, at):
    """Whether an actor is the submit thread of a queue that has none."""
    word = line.words[at]
    found, queue = line.reader.names.get(word[2:], ('', 0))
    return word[:1] == b'S' and found == 'queue' and line.reader.queues[queue] != b'threaded'


def twice(page, line):
    word = line.words[1]
    line.mark(f'`{word.decode()}` is declared already, as a {line.kind_of(word)}', 1)
    first = next((at for at, text in enumerate(page.lines[:line.number - 1], 1)
                  if text.split('#')[0].split()[1:2] == [word.decode()]), None)
    if first:
        page.mark(first, 'here', 1)
    page.rule('all names stand in one space: buffers, semaphores, fences and queues' +
              (', and threads' if line.has_blocks else ''))
    page.help('choose another name')


def out_of_range(page, line):
    line.mark({'buffer': 'a buffer has at least one byte', 'turns': 'a count of turns is at least 1',
               'wait': f'a wait holds back commands from 1 to {LAST_PLACE} on',
               'end': f'the batch ends here, with {counted_commands(line)}'}.get(
        line.form, 'of no bytes, outside a buffer, or no multiple of 4'))
    if line.form == 'end':
        for number in line.too_far():
            page.mark(number, 'holds back nothing of the batch, not even its signals')
    if line.form == 'buffer':
        page.rule('a buffer has 1 to 1,048,576 bytes')
        page.help('write how many bytes it has')
        return
    if line.form == 'turns':
        page.rule('a line of turns has at least one')
        page.help('take the line out, or raise the count')
        return
    if line.form in ('wait', 'end'):
        page.rule('`from K` names the first command that a wait holds back, counted from 1; one more than the batch has '
                  'holds back its signals alone')
        page.help(f'write a K of 1 to {len(line.reader.batch.commands) + 1}' if line.form == 'end' else
                  'write a K of 1 to the number of commands and one more')
        return
    for place, word in zip(line.places, line.words):
        if place == 'buffer name':
            page.note(f'`{word.decode()}` has {line.held(word)} bytes, 0 to {line.held(word) - 1}')
    for buffer, start, size in line.ranges():
        page.note(f'the line names {size} bytes of `{buffer.decode()}` from byte {start} on' +
                  (f', to {start + size - 1}' if size else ''))
    page.rule('an offset lies in its buffer, and so does the range; of `fill` and `update` both are multiples of 4; an '
              'update has at most 65,536 bytes')
    page.help('count the bytes; `fill B OFFSET whole WORD` fills up to the end')


def counted_commands(line):
    count = len(line.reader.batch.commands) if line.reader.batch else 0
    return '1 command' if count == 1 else f'{count} commands'


def overlap(page, line):
    start, place, size = (numeral(line.words[at]) for at in (2, 4, 5))
    held = line.words[1].decode()
    line.mark(f'reads bytes {start} to {start + size - 1} of {held} and writes bytes {place} to {place + size - 1}')
    page.rule('the ranges of a copy share no byte (Vulkan, vkCmdCopyBuffer)')
    page.help('copy through another buffer')


def limit(page, line):
    line.mark('one too many, or too large')
    queues, jobs = MOST[line.reader.given_version]
    version = f'of version {line.reader.given_version}'
    if line.has_blocks and jobs > MOST_OTHER_JOBS:
        jobs, version = MOST_OTHER_JOBS, 'with threads'
    if line.form.startswith('host '):
        page.rule(f'a script {version} has at most {jobs:,} batches and host lines, and a host line 16 pairs')
    elif line.form == 'submit':
        page.rule(f'a script {version} has at most {jobs:,} batches and host lines')
    elif line.form == 'queue':
        page.rule(f'a script {version} has at most {queues} queues')
    else:
        page.rule(LIMITS.get(line.form, 'at most 64 commands in a batch, and 8,192 in a script'))
    page.help('write `version 2` as the first line: such a script may have more' if line.reader.given_version == 1 and
              (line.form == 'queue' or line.form == 'submit' or line.form.startswith('host ')) and not too_many_pairs(line)
              else 'cut the script in two')


def too_many_pairs(line):
    return line.form.startswith('host ') and len(line.words) > 3 + 2 * MOST_PAIRS
