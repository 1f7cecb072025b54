"""Random scripts with thread blocks: lawful ones, ones nearly so, lines in any order; and small ones, for all runs."""
from blocks import hosts
from lawful import Lawful, kind

NAMES = ['K', 'L', 'M']


class Threaded(Lawful):
    """A script that is mostly lawful, with threads that wait for what jobs signal and signal what jobs wait for."""

    def __init__(self, dice):
        super().__init__(dice)
        # A timeline that is begun by threads alone.
        self.tops['E'] = dice.choice([0, 0, 1])
        self.declared.append(f'timeline E {self.tops["E"]}')
        self.threads = {name: [] for name in NAMES[:dice.choice([1, 1, 2, 2, 3])]}

    def found(self, jobs):
        return kind(*hosts(''.join(self.text(jobs)).encode()))

    def text(self, jobs):
        blocks = [line for name, steps in self.threads.items() for line in [f'thread {name}', *steps, 'end']]
        return [line + '\n' for line in self.declared + blocks + [line for lines in jobs for line in lines]]

    def grow_thread(self):
        """Adds steps to a thread: mostly such that the script stays lawful."""
        steps = self.dice.choice(list(self.threads.values()))
        for _ in range(4):
            kept, count = dict(self.tops), len(steps)
            steps += self.dice.choice([self.handed_on, self.handed_on, self.waits, self.signal_alone])()
            found = self.found(self.jobs)
            if found == 'run' or self.dice.random() < (0.1 if found == 'unordered' else 0.02):
                return
            self.tops = kept
            del steps[count:]

    def handed_on(self):
        """A wait for the last signal of a timeline, and then the next one of it or of another."""
        name, other = self.dice.choice('ABE'), self.dice.choice('ABE')
        asked = [f'{name} {self.tops[name]}'] + [f'{other} {self.tops[other]}'] * self.dice.choice([0, 1])
        self.dice.shuffle(asked)
        return [f'wait {" ".join(asked)}', f'signal {other} {self.raised(other)}']

    def waits(self):
        return [f'wait {self.pairs()}' for _ in range(self.dice.choice([1, 1, 2]))]

    def signal_alone(self):
        name = self.dice.choice('ABEE')
        return [f'signal {name} {self.raised(name)}']

    def change_thread(self):
        """Changes a line of a thread, or moves one."""
        steps = self.dice.choice(list(self.threads.values()))
        if not steps:
            return
        place = self.dice.randrange(len(steps))
        form = self.dice.random()
        if form < 0.4:
            steps[place] = self.moved(steps[place])
        elif form < 0.6:
            del steps[place]
        else:
            other = self.dice.choice(list(self.threads.values()))
            step = steps.pop(place)
            other.insert(self.dice.randrange(len(other) + 1), step)


def threaded(dice):
    """A lawful script with threads, or one that is a few changes away from lawful."""
    made = Threaded(dice)
    for _ in range(dice.randrange(2, 10)):
        made.grow()
        if dice.random() < 0.6:
            made.grow_thread()
    for _ in range(dice.choice([0, 0, 0, 1, 2])):
        made.change_thread() if dice.random() < 0.6 else made.change()
    return made.text(made.jobs)


# Lines of any kind.

def pair(dice):
    name, value = dice.choice('ABE'), dice.choice('0012345')
    if dice.random() < 0.05:
        name = dice.choice(['X', 'S', 'T', 'from', 'E1', '9', 'Q'])
    if dice.random() < 0.05:
        value = dice.choice(['0x2', '007', '4x', 'from', '1' * 20, '9' * 20])
    return [name, value]


def step(dice):
    """A line inside a block."""
    form = dice.random()
    if form < 0.45:
        count = dice.choice([1, 1, 1, 2, 2, 3]) if dice.random() < 0.95 else dice.choice([0, 15, 16, 17])
        line = ['wait', *[word for _ in range(count) for word in pair(dice)]]
    elif form < 0.9:
        line = ['signal', *pair(dice)]
    else:
        line = dice.choice([['wait', 'S'], ['signal', 'S'], ['wait', 'A', '1', 'from', '2'], ['wait'], ['end', 'end'],
                            ['thread', 'V'], ['host', 'wait', 'all', 'A', '1'], ['fill', 'X', '0', '4', '1'],
                            ['wait', 'A', '1', 'B'], ['signal', 'A', '1', 'B', '2'], ['submit', 'Q'], ['thread'],
                            ['fence', 'F'], ['timeline', 'C', '0'], ['version', '2'], ['host', 'idle'], ['']])
    return line[:-1] if dice.random() < 0.02 else line


def block(dice):
    """The lines of a block, most of which can be read."""
    name = dice.choice('TUVW')
    if dice.random() < 0.05:
        name = dice.choice(['A', 'Q', '9T', 'thread', 'end', 'n' * 16, 'n' * 17])
    lines = [['thread', name]]
    if dice.random() < 0.03:
        lines = [dice.choice([['thread'], ['thread', name, 'T'], ['Thread', name]])]
    lines += [step(dice) for _ in range(dice.choice([0, 1, 1, 2, 3]))]
    return lines + [['end']] * (dice.random() < 0.97)


JOBS = [['host idle'], ['host read A'], ['host wait all B 1'], ['host signal A 2'], ['host poll any A 1 E 2'],
        ['submit Q', 'wait A 1', 'signal B 1', 'end'], ['submit Q', 'fill X 0 4 1', 'end'], ['submit T', 'end'],
        ['submit P', 'wait E 1', 'fill X 4 4 1', 'end'], ['submit P', 'thread T', 'end'], ['host read T'],
        ['submit Q', 'wait A 1 from 2', 'fill X 0 4 1', 'end'], ['host fence wait F']]
DECLARED = ['timeline A 0', 'timeline B 1', 'timeline E 0', 'buffer X 16', 'queue Q threaded', 'queue P immediate',
            'binary S', 'fence F']


def any_lines(dice, put):
    """Declarations, blocks and jobs, which may stand in a wrong order, or few of them."""
    parts = [DECLARED if dice.random() < 0.9 else DECLARED[:dice.randrange(9)]]
    if dice.random() < 0.3:
        parts.insert(0, ['version 2'])
    elif dice.random() < 0.05:
        parts[0] = []
    parts += [[' '.join(line) for line in block(dice)] for _ in range(dice.choice([0, 1, 1, 2, 2, 3]))]
    if dice.random() < 0.05:
        line = dice.choice(['version 2', 'thread T', 'timeline C 0', 'end', 'schedule'])
        parts.insert(dice.randrange(len(parts) + 1), [line])
    parts += [dice.choice(JOBS) for _ in range(dice.choice([0, 1, 1, 2, 3]))]
    if dice.random() < 0.05:
        dice.shuffle(parts)
    return [put(dice, line.split(' ')) if dice.random() < 0.1 else line + '\n' for part in parts for line in part]


def largest(dice):
    """A text at one of the limits of thread blocks, or one past it."""
    form, past = dice.choice(['lanes', 'lanes', 'pairs', 'steps', 'jobs']), dice.choice([0, 1])
    lines = ['version 2'] * (form == 'jobs' or dice.random() < 0.5) + ['timeline A 0']
    if form == 'lanes':
        queues = dice.choice([0, 1, 8, 8])
        lines += [f'queue Q{number} threaded' for number in range(queues)]
        lines += [line for number in range(16 - queues + past) for line in (f'thread T{number}', 'end')]
    elif form == 'pairs':
        lines += ['thread T', 'wait' + ' A 0' * (16 + past), 'end']
    elif form == 'steps':
        first = dice.randrange(1025)
        lines += ['thread T', *['wait A 0'] * first, 'end', 'thread U', *['wait A 0'] * (1024 - first + past), 'end']
    else:
        lines += ['thread T', 'wait A 0', 'end', *['host idle'] * (7168 + past)]
    return [line + '\n' for line in lines]


# What a long line begins with, inside a block and outside of one.
INSIDE = [['wait']] * 12 + [['signal'], ['end'], ['waits'], ['host', 'wait', 'all'], []]
OUTSIDE = [['host', 'wait', 'all'], ['host', 'poll', 'any']] * 6 + [['thread'], ['timeline'], ['queue'], ['wait'], []]


def long_line(dice, head):
    """A line of more than 4,096 bytes: of many words, or of few with many blanks between them."""
    count = dice.choice([0, 1, 1, 2, 16, 17, 30, 31, 32, 33, 500, 1100, 2000])
    words = head + [word for _ in range(count) for word in (pair(dice) if dice.random() < 3 / count else ['A', '0'])]
    if dice.random() < 0.1:
        words.append(dice.choice('AX0'))
    for odd, share in ((['#'], 0.2), (['\x01', '\xe9', 'A\x7f'], 0.1)):
        if dice.random() < share:
            words.insert(dice.randrange(len(words) + 1), dice.choice(odd))
    blank = dice.choice([' ', '\t']) * (4096 // (len(words) + 1) + 1)
    return blank.join(['', *words, ''])


def long_lines(dice):
    """A text with a long line, before a block, inside one, behind one or in a batch."""
    place = dice.choice(['before', 'inside', 'inside', 'inside', 'behind', 'behind', 'batch'])
    lines = ['version 2'] * (dice.random() < 0.3) + DECLARED
    block_lines = ['thread T', 'wait A 0', 'end']
    long = long_line(dice, dice.choice(INSIDE if place in ('inside', 'batch') else OUTSIDE))
    if place == 'inside':
        block_lines.insert(dice.choice([1, 2]), long)
    else:
        lines = lines + [long] * (place == 'before')
    behind = {'behind': [long, 'host idle'], 'batch': ['submit Q', long, 'end']}.get(place, ['host idle'])
    return [line + '\n' for line in lines + block_lines + behind]


def block_script(dice, put):
    form = dice.random()
    if form < 0.65:
        text = threaded(dice)
    elif form < 0.96:
        text = any_lines(dice, put)
    else:
        text = largest(dice) if form < 0.98 else long_lines(dice)
    data = ''.join(text).encode('latin-1')
    if dice.random() < 0.05 and data:
        data = data[:dice.randrange(len(data))]
    return data


# Small scripts, all runs of which can be gone through.

class Small:
    """A script with at most 2 threads of 2 steps and 3 jobs, lawful or not: mostly such that it can be run to its end."""

    def __init__(self, dice):
        self.dice = dice
        self.tops = {'A': dice.choice([0, 0, 1]), 'B': 0}
        self.is_second = dice.random() < 0.5
        self.declared = ['version 2'] * self.is_second + [
            f'timeline A {self.tops["A"]}', 'timeline B 0', 'buffer X 8', 'fence F', 'binary S',
            f'queue Q {dice.choice(["threaded", "deferred"])}', 'queue P threaded']

    def text(self):
        """Parts are made in any order, so that some wait for what others signal later."""
        blocks = [[f'thread {name}', *[self.step] * self.dice.choice([1, 2, 2]), 'end']
                  for name in 'TU'[:self.dice.choice([1, 2, 2])]]
        jobs = [self.dice.choice([self.batch, self.host]) for _ in range(self.dice.choice([1, 2, 2, 3, 3]))]
        places = [(lines, place) for lines in [*blocks, jobs] for place, line in enumerate(lines) if callable(line)]
        self.dice.shuffle(places)
        for lines, place in places:
            lines[place] = lines[place]()
        return self.declared + [line for lines in blocks + jobs for line in lines]

    def pair(self):
        name = self.dice.choice('AAB')
        return f'{name} {max(0, self.tops[name] - self.dice.choice([-1, 0, 0, 0, 0, 1]))}'

    def pairs(self):
        return ' '.join(self.pair() for _ in range(self.dice.choice([1, 1, 2])))

    def signal(self):
        name = self.dice.choice('AAB')
        self.tops[name] += self.dice.choice([1, 1, 1, 1, 2, 0])
        return f'signal {name} {self.tops[name]}'

    def step(self):
        return self.signal() if self.dice.random() < 0.55 else f'wait {self.pairs()}'

    def batch(self):
        dice = self.dice
        held = ['', ' from 2'] if self.is_second else ['']
        waits = [f'wait {self.pair()}{dice.choice(held)}' for _ in range(dice.choice([0, 1, 1, 2]))]
        commands = [f'fill X {dice.choice("04")} 4 1' for _ in range(dice.choice([1, 1, 2]))]
        signals = [self.signal() for _ in range(dice.choice([0, 1, 1, 2]))]
        fence = ['fence F'] if dice.random() < 0.15 else []
        return [f'submit {dice.choice("QP")}', *waits, *commands, *signals, *fence, 'end']

    def host(self):
        form = self.dice.choice(['idle', 'idle', 'read', 'read', 'wait all', 'wait any', 'poll all', 'poll any', 'signal',
                                 'fence poll F', 'fence reset F'])
        if form == 'signal':
            return [f'host {self.signal()}']
        if form == 'read':
            return [f'host read {self.dice.choice("AAB")}']
        return [f'host {form} {self.pairs()}' if form.endswith(('all', 'any')) else f'host {form}']


def small(dice):
    return ''.join(line + '\n' for line in Small(dice).text()).encode()
