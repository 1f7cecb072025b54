"""Mends of faults of one line, in groups, the best ones first: each is what to do, and the edits."""
import difflib

from draft import delete, insert, replace
from line_faults import BYTE_ORDER_MARKS, is_submitted_by_host, too_many_pairs, wanted_names
from reference import DECLARATIONS, INSIDE, NAME, OUTSIDE, PARTS, SCHEDULE, numeral

FIRST_WORDS = sorted({form[1][0].decode() for form in INSIDE + OUTSIDE})
DECLARED_AS = {'timeline': 'timeline {} 0', 'binary': 'binary {}', 'fence': 'fence {}', 'queue': 'queue {} threaded'}


def line_mends(verdict, line):
    return {'syntax': syntax, 'order': order, 'number': number_fault, 'name': name, 'twice': twice,
            'range': out_of_range, 'overlap': overlap, 'limit': limit}[verdict.kind](line)


def rewritten(line, words, why=None):
    """The line with other words; its comment stays."""
    text = ' '.join(word.decode('latin-1') if isinstance(word, bytes) else word for word in words)
    comment = line.raw.rstrip(b'\r')[len(line.text):].decode('latin-1')
    return why or f'write `{text}`', [replace(line.number, text + (f' {comment}' if comment else ''))]


# Lines that can't be read.

def syntax(line):
    if line.is_at_end:
        missing = 'end' if line.reader.batch or line.thread else 'schedule'
        return [[(f'write `{missing}` as the last line', [insert(line.number, missing)])]]
    if line.odd_bytes():
        return [without_odd_bytes(line)]
    if line.form:
        return [actors(line)] if line.form == 'turns' else [other_names(line)]
    words = [word.decode('latin-1') for word in line.words]
    groups = [of_versions(line, words), fitting(line, words), other_place(line, words), near_words(line, words)]
    if words == ['end']:
        groups.append([('take the line out: no batch is open', [delete(line.number)])])
    return groups


def of_versions(line, words):
    """A line that says another version, or one of version 2 in a script of version 1."""
    if words[0] == 'version':
        mends = [('take the line out', [delete(line.number)])]
        return mends if line.reader.has_begun else [rewritten(line, ['version', '2'])] + mends
    if line.reader.batch and line.is_held_wait() and line.reader.given_version == 1:
        return [second_version()]
    return []


def second_version():
    return 'write `version 2` as the first line', [insert(1, 'version 2')]


def without_odd_bytes(line):
    raw = line.raw
    for start, said in BYTE_ORDER_MARKS.items():
        if line.number == 1 and raw.startswith(start) and len(start) == 3:
            return [(f'take {said} out, at the start of the line', [replace(1, raw[3:].decode('latin-1'))])]
    if 13 in line.odd_bytes():
        first, *rest = raw.rstrip(b'\r').decode('latin-1').split('\r')
        edits = [replace(line.number, first), *(insert(line.number + 1, text) for text in rest)]
        return [('end lines with line feeds in the place of carriage returns', edits)]
    kept = bytes(byte for byte in line.text if 32 <= byte <= 126 or byte == 9)
    return [('take those bytes out', [replace(line.number, (kept + raw[len(line.text):]).decode('latin-1'))])]


def actors(line):
    """A queue's name in the place of an actor."""
    word = line.words[0]
    named = word[2:] if word[1:2] == b':' else word
    if line.kind_of(named) != 'queue':
        return near_words(line, [text.decode() for text in line.words])
    return [rewritten(line, [f'{who}:{named.decode()}', *line.words[1:]]) for who in ('R', 'S')]


def other_names(line):
    """A name that can't be one, changed wherever it stands as a word."""
    wrong = next(word for place, word in zip(line.places, line.words) if isinstance(place, str)
                 and (place == 'new' or place.endswith(' name')) and not NAME.fullmatch(word))
    text = ''.join(letter if letter.isalnum() or letter == '_' else '_' for letter in wrong.decode())
    text = ('_' + text if text[:1].isdigit() else text)[:16]
    taken = {word for other in line.page.lines for word in other.split('#')[0].split()}
    while text in taken:
        text = text[:14] + '_' + str(len(taken) % 10) if text[-2:-1] != '_' else text[:-1] + chr(ord(text[-1]) + 1)
        if not NAME.fullmatch(text.encode()):
            return []
    edits = []
    for number, other in enumerate(line.page.lines, 1):
        head, mark, comment = other.partition('#')
        words = head.split()
        if wrong.decode() in words:
            edits.append(replace(number, ' '.join(text if word == wrong.decode() else word for word in words) +
                                 (f' {mark}{comment}' if mark else '')))
    return [(f'call it `{text}`', edits)]


def fitting(line, words):
    """The words that a line of this place lacks, or has too many."""
    head, rest = words[0].lower(), words[1:]
    tries = [[word.lower() if word.lower() in FIRST_WORDS else word for word in words]]
    if head == 'host' and rest[:1] and rest[0] in ('wait', 'poll') and rest[1:2] not in (['all'], ['any']):
        tries.append(['host', rest[0], 'all', *rest[1:]])
    if head == 'host' and rest[:1] == ['fence'] and len(rest) == 2:
        tries.append(['host', 'fence', 'wait', rest[1]])
    if head == 'host' and rest[:1] and rest[0] in ('wait', 'poll', 'reset') and len(rest) == 2:
        tries.append(['host', 'fence', *rest])
    if head == 'queue' and len(rest) == 1:
        tries.append(['queue', rest[0], 'threaded'])
    if head == 'timeline' and len(rest) == 1:
        tries.append([*words, '0'])
    tries += [words[:count] for count in range(len(words) - 1, 1, -1)]
    if head in ('wait', 'signal') and len(rest) > 2:
        tries.append(words[:3])
    if head == 'fill' and len(rest) == 3:
        tries.append(['fill', rest[0], rest[1], 'whole', rest[2]])
    read = [each for each in tries if each != words and line.reader.form([word.encode('latin-1') for word in each])[0]]
    return [rewritten(line, each) for each in read]


def other_place(line, words):
    """A line that belongs inside a batch, or outside one."""
    encoded = [word.encode('latin-1') for word in words]
    if line.thread:
        return [('close the block before it with `end`', [insert(line.number, 'end')])]
    if line.reader.batch:
        if any(form[1][0] == encoded[0] for form in OUTSIDE) and encoded[0] not in (b'fence',):
            return [('close the batch before it with `end`', [insert(line.number, 'end')])]
        return []
    jobs = line.reader.jobs
    if line.section() is SCHEDULE or not any(form[1][0] == encoded[0] for form in INSIDE) or words == ['end']:
        return []
    if jobs and jobs[-1].queue is not None:
        end = next(number for number in range(line.number - 1, 0, -1)
                   if line.page.lines[number - 1].split('#')[0].split() == ['end'])
        return [(f'move it into the batch before, above `end` at line {line.at(end)}',
                 [insert(end, line.raw.rstrip(b'\r').decode('latin-1')), delete(line.number)])]
    return []


def near_words(line, words):
    """A first word, or a mode, that is spelled almost so."""
    if line.section() is SCHEDULE:
        options = ['host'] + [f'{who}:{name.decode()}' for name, (kind, _) in line.reader.names.items()
                              if kind == 'queue' for who in 'SR']
    else:
        options = FIRST_WORDS
    near = difflib.get_close_matches(words[0], options, 3, 0.6)
    found = [rewritten(line, [other, *words[1:]]) for other in near if other != words[0]]
    if words[0] == 'queue' and len(words) == 3:
        modes = difflib.get_close_matches(words[2], ['immediate', 'deferred', 'threaded'], 1, 0.5) or ['threaded']
        found += [rewritten(line, [*words[:2], mode]) for mode in modes]
    return found


# Lines in a wrong place.

def order(line):
    reader, text = line.reader, line.raw.rstrip(b'\r').decode('latin-1')
    if line.form == 'thread':
        return [moved_block(line)]
    if line.form in DECLARATIONS and not reader.batch:
        first = (line.threads or reader.jobs)[0].line
        return [[(f'move it up, before line {line.at(first)}', [insert(first, text), delete(line.number)])]]
    batch = reader.batch
    if line.form == 'batch_fence' and batch.fence:
        queue = line.page.lines[batch.line - 1].split()[1]
        parts = [f'submit {queue}', text, 'end']
        behind = [('submit an empty batch behind it that names this fence',
                   [delete(line.number)] + [insert(number + 1, part) for part in parts])
                  for number in range(line.number, len(line.page.lines) + 1)
                  if line.page.lines[number - 1].split('#')[0].split() == ['end']]
        return [behind[:1], [('take the line out', [delete(line.number)])]]
    part = PARTS[line.form]
    later = [number for number in range(batch.line + 1, line.number) if part_of(line, number) > part]
    return [[(f'move it up, before line {line.at(later[0])}', [insert(later[0], text), delete(line.number)])]]


def moved_block(line):
    """The block of a thread, moved before the first job, where it is closed."""
    first, texts = line.reader.jobs[0].line, line.page.lines[line.number - 1:]
    end = next((at for at, text in enumerate(texts) if text.split('#')[0].split() == ['end']), None)
    if end is None:
        return []
    moved = [edit for at, text in enumerate(texts[:end + 1]) for edit in (insert(first, text), delete(line.number + at))]
    return [(f'move its block up, before line {line.at(first)}', moved)]


def part_of(line, number):
    """The part of a batch that a line above belongs to; 0 for one without words."""
    words = line.page.lines[number - 1].split('#')[0].split()
    if not words:
        return 0
    form, _ = line.reader.form([word.encode() for word in words])
    return PARTS.get(form, 0)


# Words of a line.

def number_fault(line):
    tries = []
    if line.words[0] == b'update':
        digits = line.words[3][2:] if line.words[3][:2].lower() == b'0x' else line.words[3]
        tries += [digits, b'0' + digits]
        return [[rewritten(line, [*line.words[:3], each]) for each in tries if each != line.words[3]]]
    words = []
    for place, word in zip(line.places, line.words):
        if place in ('numeral', 'small numeral') and numeral(word) is None:
            lower = word.lower()
            word = lower if numeral(lower) is not None else word.strip(b'-+') if word[:1] in b'-+' else \
                lower.rstrip(b'ux').replace(b'_', b'')
            if numeral(word) is None and numeral(word.lstrip(b'0') or b'0') is not None:
                word = word.lstrip(b'0') or b'0'
        words.append(word)
    return [[rewritten(line, words)] if words != line.words else []]


def name(line):
    groups = []
    word = line.words[0]
    if word in (b'wait', b'signal') and not line.thread:
        groups.append(values(line))
    for at, wanted, text, is_actor in wanted_names(line):
        if is_actor and is_submitted_by_host(line, at):
            why = 'write `host`: its turns hand on the batches of this queue'
            return [[rewritten(line, [b'host', *line.words[1:]], why)]]
        if line.kind_of(text) == wanted:
            continue
        groups.append(near_names(line, at, wanted, text, is_actor))
        if line.kind_of(text) is None:
            groups.append(declared(line, wanted, text))
        break
    return groups


def near_names(line, at, wanted, text, is_actor):
    """Another name of the wanted kind that is spelled almost so, or the only one there is."""
    options = [each.decode() for each, (kind, _) in line.reader.names.items() if kind == wanted]
    near = difflib.get_close_matches(text.decode(), options, 2, 0.5) or (options if len(options) == 1 else [])
    head = line.words[at][:2].decode() if is_actor else ''
    return [rewritten(line, [*line.words[:at], head + other, *line.words[at + 1:]]) for other in near]


def declared(line, wanted, text):
    """A declaration of the name above the first job."""
    jobs = line.threads or line.reader.jobs or [line.reader.batch]
    first = jobs[0].line if jobs[0] else line.number
    if wanted == 'buffer':
        room = [start + size for buffer, start, size in line.ranges() if buffer == text] if sized(line) else [16]
        declaration = f'buffer {text.decode()} {max(room + [4])}'
    else:
        declaration = DECLARED_AS[wanted].format(text.decode())
    return [(f'declare it: `{declaration}`', [insert(first, declaration)])]


def sized(line):
    """Whether the numbers of a command can be read."""
    return line.form in ('fill', 'update', 'copy') and all(
        numeral(word) is not None for place, word in zip(line.places, line.words) if place == 'numeral')


def values(line):
    """A value for a timeline, none for a binary semaphore."""
    word, text = line.words[0], line.words[1]
    kind = line.kind_of(text)
    if kind == 'binary' and len(line.words) == 3:
        return [rewritten(line, line.words[:2])]
    if kind != 'timeline' or len(line.words) != 2:
        return []
    t = line.reader.names[text][1]
    signals = [value for job in [*line.reader.jobs, line.reader.batch]
               for _, other, value in (job.signals if job.kind == 'batch' else
                                       [(0, *pair) for pair in job.pairs] if job.kind == 'host signal' else [])
               if other == t]
    highest = max(signals + [line.reader.semaphores[t][1]])
    value = highest + 1 if word == b'signal' else highest
    return [rewritten(line, [*line.words, str(value)])]


def twice(line):
    word = line.words[1].decode()
    first = next(text for text in line.page.lines if text.split('#')[0].split()[1:2] == [word])
    if first.split('#')[0].split() == [each.decode() for each in line.words]:
        return [[('take the line out: it says the same again', [delete(line.number)])]]
    return []


def out_of_range(line):
    words = [word.decode() for word in line.words]
    if line.form == 'turns':
        return [[('take the line out', [delete(line.number)])]]
    if line.form == 'buffer':
        return [[rewritten(line, ['buffer', words[1], '4'])]]
    if line.form == 'wait':
        return [[rewritten(line, words[:-2])]]
    if line.form == 'end':
        last = str(len(line.reader.batch.commands) + 1)
        edits = [replace(number, ' '.join(line.page.lines[number - 1].split('#')[0].split()[:-1] + [last]))
                 for number in line.too_far()]
        return [[(f'write `from {last}`: such a wait holds back the signals alone', edits)]]
    if line.form in ('fill', 'fill_whole'):
        start = numeral(line.words[2])
        whole = [rewritten(line, ['fill', words[1], place, 'whole', words[-1]])
                 for place in (words[2], str(start // 4 * 4))]
        size = numeral(line.words[3]) if line.form == 'fill' else 0
        rounded = ['fill', words[1], str(start // 4 * 4), str((size + 3) // 4 * 4), words[-1]]
        return [[rewritten(line, rounded)] if line.form == 'fill' else [], whole]
    if line.form == 'copy':
        start, place, size = (numeral(line.words[at]) for at in (2, 4, 5))
        room = min(line.held(line.words[1]) - start, line.held(line.words[3]) - place)
        return [[rewritten(line, [*words[:5], str(room)])] if 0 < room < size else []]
    return [cut_update(line, words)]


def cut_update(line, words):
    """An update that ends with its buffer."""
    start, count = numeral(line.words[2]) // 4 * 4, len(words[3]) // 2
    room = (line.held(line.words[1]) - start) // 4 * 4
    size = min(room, count // 4 * 4, 65536)
    return [rewritten(line, [words[0], words[1], str(start), words[3][:2 * size]])] if size > 0 else []


def overlap(line):
    """Two copies through a buffer in between."""
    words, number = [word.decode() for word in line.words], 1
    while f'between_{number}'.encode() in line.reader.names:
        number += 1
    between, first = f'between_{number}', (line.threads or line.reader.jobs or [line.reader.batch])[0].line
    return [[(f'copy through another buffer, {between}', [
        insert(first, f'buffer {between} {numeral(line.words[5])}'),
        insert(line.number, f'copy {words[1]} {words[2]} {between} 0 {words[5]}'),
        replace(line.number, f'copy {between} 0 {words[3]} {words[4]} {words[5]}')])]]


def limit(line):
    """A declaration that needn't be there can go; all else is for the writer to choose."""
    second = []
    if line.reader.given_version == 1 and (line.form in ('queue', 'submit') or line.form.startswith('host ')):
        second = [] if too_many_pairs(line) else [second_version()]
    if line.form in (*DECLARATIONS, 'thread_wait', 'thread_signal'):
        return [second, [('take the line out', [delete(line.number)])]]
    return [second]
