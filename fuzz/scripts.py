"""Random scripts: lawful ones, ones nearly so, batches and steps of the host in any order, and lines in any order."""
from block_scripts import block_script
from lawful import Lawful
from schedules import schedule

# Words that stand in the place of a fitting one now and then.
NAMES = ['X', 'Y', 'A', 'B', 'S', 'F', 'Q', 'P', '_a1', 'buffer', 'end', 'fill', 'n' * 16, 'n' * 17, '9X', 'X-', '']
NUMBERS = ['0', '1', '2', '3', '4', '7', '8', '12', '16', '0x10', '0X4', '020', '0x', '20', '64', '-4', '4x', '1048576',
           '1048577', '4294967295', '4294967296', '0xffffffff', '0x100000000', '18446744073709551615',
           '18446744073709551616', '0xffffffffffffffff', '0x0ffffffffffffffff', '000000000000000000004',
           '00000000000000000004', 'whole', 'X']
DIGITS = ['0aFF00b1', '0123456789abcdefABCDEF0123456789', '00000000', '0000000', '0000000g', '0000', '0x00000000',
          '11' * 12]
BLANKS = [' '] * 8 + ['  ', '\t', ' \t ']
ENDS = ['\n'] * 10 + ['\r\n', '\r\r\n', '\n\n', ' # note\n', '#\u00e9\n', '\n# \u00ff\n', '\r\n\r\n', '\u00e9\n']


def pick(dice, names):
    return dice.choice(names) if dice.random() < 0.9 else dice.choice(NAMES)


def number(dice):
    return dice.choice(['0', '4', '8', '16', '0x8']) if dice.random() < 0.75 else dice.choice(NUMBERS)


def command(dice):
    form = dice.random()
    if form < 0.4:
        return ['fill', pick(dice, 'XY'), number(dice), number(dice), number(dice)]
    if form < 0.55:
        return ['fill', pick(dice, 'XY'), number(dice), 'whole', number(dice)]
    if form < 0.75:
        return ['update', pick(dice, 'XY'), number(dice), dice.choice(DIGITS)]
    return ['copy', pick(dice, 'XY'), number(dice), pick(dice, 'XY'), number(dice), number(dice)]


def wait(dice, held):
    """A wait, which holds back a part of its batch so often."""
    line = mark(dice, 'wait')
    if dice.random() >= held:
        return line
    return line + ['from', dice.choice('1123') if dice.random() < 0.9 else dice.choice(['0', '64', '65', '66', number(dice)])]


def mark(dice, word):
    """A wait or a signal."""
    if dice.random() < 0.7:
        return [word, pick(dice, 'AB'), dice.choice('0123456') if dice.random() < 0.9 else number(dice)]
    return [word, pick(dice, 'S')]


def inside(dice):
    form = dice.random()
    if form < 0.2:
        return wait(dice, 0.1)
    if form < 0.5:
        return command(dice)
    if form < 0.7:
        return mark(dice, 'signal')
    if form < 0.75:
        return ['fence', pick(dice, 'FG')]
    return ['end'] if form < 0.95 else odd(dice)


def host(dice):
    """A line of the host."""
    form = dice.choice(['signal', 'wait all', 'wait any', 'poll all', 'poll any', 'read', 'fence wait', 'fence poll',
                        'fence reset', 'idle'])
    line = ['host', *form.split()]
    if form == 'signal' or form.endswith(('all', 'any')):
        count = 1 if form == 'signal' else dice.choice([1, 1, 1, 2, 2, 3] if dice.random() < 0.9 else [0, 15, 16, 17])
        for _ in range(count):
            line += [pick(dice, 'AB'), dice.choice('01234') if dice.random() < 0.9 else number(dice)]
    elif form != 'idle':
        line.append(pick(dice, 'AB' if form == 'read' else 'FG'))
    if dice.random() < 0.03:
        line.insert(dice.randrange(1, len(line) + 1), dice.choice(['all', 'A', '1', 'F']))
    return line[:-1] if dice.random() < 0.03 else line


def outside(dice):
    form = dice.random()
    if form < 0.1:
        return ['buffer', pick(dice, 'XYZ'), number(dice)]
    if form < 0.2:
        return ['timeline', pick(dice, 'ABC'), number(dice)]
    if form < 0.25:
        return [dice.choice(['binary', 'fence']), pick(dice, 'STFG')]
    if form < 0.35:
        return ['queue', pick(dice, 'PQR'), dice.choice(['immediate'] * 4 + ['threaded'] * 7 + ['deferred', 'deferred', 'soon'])]
    if form < 0.5:
        return host(dice)
    return ['submit', pick(dice, 'PQ')] if form < 0.9 else odd(dice)


def odd(dice):
    return dice.choice([['update', 'X', '0'], ['copy', 'X', '0', 'Y', '0'], ['wait', 'A', '1'], ['host', 'idle'],
                        ['end', 'end'], ['fill', 'X', '0'], ['buffer'], ['timeline', 'A', '0'], ['schedule'],
                        ['version', '2'], ['fence', 'F'], ['submit'], ['#'], [''], ['wait', 'A'], ['signal', 'S', '1'],
                        ['wait', 'A', '1', 'from', '2'], ['fence'], ['binary', 'S', '0'], ['queue', 'Q'], ['signal'],
                        ['host'], ['host', 'wait'], ['host', 'wait', 'A', '1'], ['host', 'wait', 'all', 'A', '1', 'B'],
                        ['host', 'signal', 'S'], ['host', 'fence', 'F'], ['host', 'read', 'F'],
                        ['host', 'poll', 'any']])


def put(dice, line):
    return dice.choice(['', '', ' ', '\t']) + dice.choice(BLANKS).join(line) + dice.choice(ENDS)


def fitting(dice):
    """A command that fits, most of the time."""
    if dice.random() < 0.05:
        return command(dice)
    first, second = dice.sample('XY', 2)
    return dice.choice([['fill', first, dice.choice(['0', '4', '8']), dice.choice(['4', '8', 'whole']),
                         str(dice.randrange(9))],
                        ['update', first, dice.choice(['0', '8', '12']), '%08x' % dice.randrange(2 ** 32)],
                        ['copy', first, dice.choice('0123'), second, dice.choice('0123'), dice.choice('123456')]])


def batch(dice, is_second):
    """A batch whose lines stand in order."""
    lines = [['submit', dice.choice('PPQQR')]]
    lines += [wait(dice, 0.5 if is_second else 0.02) for _ in range(dice.choice([0, 0, 1, 1, 2]))]
    lines += [fitting(dice) for _ in range(dice.choice([0, 0, 1, 1, 2]))]
    lines += [mark(dice, 'signal') for _ in range(dice.choice([0, 0, 1, 1, 2]))]
    if dice.random() < 0.1:
        lines.append(['fence', dice.choice('FG')])
    return lines + [['end']]


def version(dice):
    """The line that says the version, with other lines without words before it now and then."""
    line = 'version 2' if dice.random() < 0.9 else dice.choice(['version', 'version 1', 'version 3',
                                                                              'version 0x2', 'version 2 2', 'Version 2'])
    return dice.choice(['', '', '', '# note\n', '\n', ' \t\n']) + line + dice.choice(ENDS[:14])


def queues(dice):
    """Batches of timelines that wait and signal, most of which can be run in some order."""
    declared = ['timeline A 0\n', 'timeline B %d\n' % dice.choice([0, 0, 1, 3]), 'binary S\n', 'fence F\n', 'fence G\n',
                'queue P %s\n' % dice.choice(['threaded'] * 4 + ['deferred']), 'queue Q threaded\n',
                'queue R %s\n' % dice.choice(['threaded', 'immediate', 'deferred']),
                'buffer X 16\n', 'buffer Y 0x18\n']
    dice.shuffle(declared)
    text = declared if dice.random() < 0.9 else declared[1:]
    is_second = dice.random() < 0.4
    if is_second:
        text.insert(0, version(dice))
    hosted = dice.choice([0, 0, 0.3])
    for _ in range(dice.randrange(0, 7)):
        job = [host(dice)] if dice.random() < hosted else batch(dice, is_second)
        text += [' '.join(line) + '\n' if dice.random() < 0.97 else put(dice, line) for line in job]
    return text


def lines(dice):
    """Lines in any order."""
    text, opened = [version(dice)] if dice.random() < 0.4 else [], False
    if dice.random() < 0.9:
        text.append('buffer X 16\nbuffer Y 0x18\ntimeline A 0\ntimeline B 2\nbinary S\nfence F\nqueue Q threaded\n'
                    'queue P immediate\n' if dice.random() < 0.7 else 'queue Q immediate\nbuffer X 8\n')
    for _ in range(dice.randrange(0, 14)):
        line = inside(dice) if opened else outside(dice)
        if line[:1] == ['submit']:
            opened = True
        if line == ['end']:
            opened = False
        text.append(put(dice, line))
    if opened and dice.random() < 0.8:
        text.append('end\n')
    return text


def ordered(dice):
    """A lawful script, or one that is a few changes away from lawful."""
    made = Lawful(dice)
    for _ in range(dice.randrange(2, 12)):
        made.grow()
    if dice.random() < (0.1 if made.signaled else 0.4):
        made.shuffle()
    for _ in range(dice.choice([0, 0, 0, 1, 1, 2, 3])):
        made.change()
    return made.text(made.jobs)


def scheduled(dice):
    """A lawful script, or one nearly so, with a schedule."""
    made = Lawful(dice)
    for _ in range(dice.randrange(1, 8)):
        made.grow()
    if dice.random() < 0.1:
        made.change()
    threaded = [name for name, mode in made.modes.items() if mode == 'threaded' or dice.random() < 0.01]
    return made.text(made.jobs) + turns(dice, list(made.modes), threaded)


def turns(dice, queues, threaded):
    """The lines of a schedule, few of them odd."""
    text = ['schedule\n']
    for line in schedule(dice, queues, threaded):
        if dice.random() < 0.002:
            odd_line = [dice.choice(['host', 's:Q', 'X:Q', 'S:', 'S:9', 'R:nobody', 'S', 'R:X', 'idle', line]),
                        dice.choice(['0', 'idle', '65536', '65537', '1 1', '-1', ''])]
            text.append(put(dice, odd_line))
        else:
            text.append(line + dice.choice(['\n'] * 40 + [' # note\n', '\n\n', '\r\n']))
    return text


def script(dice, with_blocks=0):
    """A text; so many of all have thread blocks."""
    if with_blocks and dice.random() < with_blocks:
        return block_script(dice, put)
    form = dice.random()
    if form < 0.35:
        return ''.join(ordered(dice)).encode()
    if form < 0.65:
        return ''.join(scheduled(dice)).encode()
    text = queues(dice) if form < 0.83 else lines(dice)
    if dice.random() < 0.1:
        text += turns(dice, 'PQ', 'PQ')
    data = ''.join(text).encode('latin-1')
    if dice.random() < 0.1 and data:
        data = data[:dice.randrange(len(data))]
    if dice.random() < 0.05 and data:
        place = dice.randrange(len(data))
        data = data[:place] + bytes([dice.randrange(256)]) + data[place + 1:]
    return data
