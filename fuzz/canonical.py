"""A second reading of docs/LANGUAGE.md, "The canonical text": that of a lawful script without a schedule."""
import re

# Where the declarations of each first word stand: buffers, then semaphores and fences, then queues.
ORDER = {b'buffer': 0, b'timeline': 1, b'binary': 1, b'fence': 1, b'queue': 2}


def canonical(data, version):
    """The canonical text of a lawful script, as one of this version."""
    declared, jobs = numbered(data)
    first = [[b'version', b'2']] if version == 2 else []
    lines = first + [words for _, words in declared + jobs]
    return b''.join(b' '.join(words) + b'\n' for words in lines)


def numbered(data):
    """The lines of declarations and those of jobs as the canonical text has them, each with its number in a script."""
    declared, jobs = ([], [], []), []
    for number, line in enumerate(data.split(b'\n'), 1):
        words = re.split(rb'[ \t]+', line.split(b'#', 1)[0].strip(b' \t\r'))
        if words[0] in (b'', b'version'):
            continue
        part = declared[ORDER[words[0]]] if words[0] in ORDER and not jobs else jobs
        part.append((number, plain(words)))
    return declared[0] + declared[1] + declared[2], jobs


def plain(words):
    """The words of a line, each in its one form."""
    form, last = words[0], len(words) - 1
    if form in (b'wait', b'signal', b'timeline', b'buffer') or words[:2] in ([b'host', b'signal'], [b'host', b'wait'], [b'host', b'poll']):
        # Names stand at places of their own, so what looks like a number is one.
        words = [number(word) for word in words]
        return words[:-2] if form == b'wait' and last > 2 and words[-2:] == [b'from', b'1'] else words
    if form == b'fill':
        word = b'0x%08x' % int(number(words[4]))
        return [form, words[1], number(words[2]), words[3] if words[3] == b'whole' else number(words[3]), word]
    if form == b'update':
        return [form, words[1], number(words[2]), words[3].lower()]
    if form == b'copy':
        return [form, words[1], number(words[2]), words[3], number(words[4]), number(words[5])]
    return words


def number(word):
    """A numeral in decimal, without leading zeros; a name as it is, which begins with no digit."""
    if not word[:1].isdigit():
        return word
    return b'%d' % (int(word, 16) if word[:2] == b'0x' else int(word))
