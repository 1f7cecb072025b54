"""Random captures: mostly without faults, with few things, so that accesses often meet; some of many small accesses of
one resource, most of which are ordered, so that many are kept; and some of many threads and queues, each of which does
little and is gone then, so that clocks are gone over."""
import random

from captures import WORDS


class Writer:
    """Writes one capture."""

    def __init__(self, seed):
        self.random = random.Random(seed)
        self.lines, self.open, self.part, self.values, self.handed = [], None, 0, {}, []
        self.threads, self.thread = set(), None
        self.faulty = self.random.random() < 0.15
        self.wild = self.random.random() < 0.5

    def pick(self, *some):
        return self.random.choice(some)

    def stages(self):
        few = ['copy', 'compute', 'color', 'vertex']
        kind = self.random.random()
        if kind < 0.3:
            return 'all'
        if kind < 0.37:
            return 'none'
        return '+'.join(self.random.choice(WORDS if self.wild else few) for _ in range(self.pick(1, 1, 1, 2)))

    def some_stages(self):
        stages = self.stages()
        return 'copy' if stages == 'none' and not self.faulty else stages

    def units(self):
        offset = self.random.randrange(8)
        return f'{self.pick("X", "X", "X", "Y")} {offset} {self.random.randrange(1, 9 - offset)}'

    def outside(self):
        kind = self.random.randrange(24)
        if kind < 9:
            name = f'submit {self.pick("P", "Q")}'
            if self.handed and self.random.random() < 0.5:
                name += f' {self.handed.pop(self.random.randrange(len(self.handed)))}'
            self.open, self.part = name, 1
            return name
        if kind < 12:
            return f'{self.pick("read", "write")} {self.units()}'
        if kind < 14:
            self.thread = self.pick('H', 'J')
            self.threads.add(self.thread)
            return f'thread {self.thread}'
        if kind == 14 and self.threads:
            return f'after {self.pick(*sorted(self.threads))}'
        if kind == 15 and any(line == 'fence F' for line in self.lines[8:]):
            return 'saw F'
        if kind < 18:
            self.values['A'] = self.values.get('A', 0) + self.pick(1, 1, 2)
            return f'signal A {self.values["A"]}'
        if kind == 18 and self.values:
            return f'saw A {self.random.randrange(self.values["A"] + 1)}'
        if kind == 19:
            return f'idle {self.pick("P", "Q")}'
        if kind == 20:
            name = f'K{len(self.lines)}'
            self.handed.append(name)
            return f'hand {name}'
        if kind == 21 and self.random.random() < 0.3:
            return 'cut'
        if kind == 22:
            return self.gone()
        return '# nothing'

    def gone(self):
        """A thread's name ends, or another one ends and comes again."""
        threads = sorted(self.threads - {self.thread})
        if threads and self.random.random() < 0.5:
            name = self.pick(*threads)
            self.threads.remove(name)
            return f'gone {name}'
        name = self.pick('X', 'Y', 'S', 'E', 'F', 'P', 'Q')
        self.lines.append(f'gone {name}')
        return {'X': 'resource X 8', 'Y': 'resource Y 8', 'S': 'binary S', 'E': 'event E',
                'F': 'fence F'}.get(name, f'queue {name}')

    def inside(self):
        kind = self.random.randrange(16)
        if self.part == 1 and kind < 6:
            if self.random.random() < 0.5 and self.values.get('A'):
                return f'wait A {self.random.randrange(self.values["A"] + 1)} {self.stages()}'
            if self.signaled():
                return f'wait S {self.stages()}'
        if self.part <= 2 and kind < 11:
            self.part = 2
            line = self.pick('read', 'write', 'read', 'write', 'barrier', 'barrier', 'next', 'transition', 'set',
                             'await')
            if line in ('read', 'write'):
                return f'{line} {self.units()} {self.some_stages()}'
            if line in ('barrier', 'transition'):
                more = f' {self.units()}' if line == 'transition' else ''
                return f'barrier {self.stages()} {self.stages()}{more}'
            if line == 'next' or (line == 'await' and self.random.random() < 0.6):
                return 'next'
            return f'{line} E {self.stages()}'
        if self.part <= 3 and kind < 13:
            self.part = 3
            if self.random.random() < 0.5:
                return f'signal S {self.stages()}'
            self.values['A'] = self.values.get('A', 0) + self.pick(1, 1, 2)
            return f'signal A {self.values["A"]} {self.stages()}'
        if self.part <= 3 and kind == 13:
            self.part = 4
            return 'fence F'
        self.open = None
        return 'end'

    def signaled(self):
        for line in reversed(self.lines):
            if line.startswith(('wait S', 'gone S')):
                return False
            if line.startswith('signal S'):
                return True
        return False

    def damage(self, line):
        """A line that may have a fault."""
        words = line.split()
        place = self.random.randrange(len(words))
        words[place] = self.pick('A', 'X', 'S', 'Q', 'none', '9', '0x', 'B', 'all', '', 'K', '18446744073709551616',
                                 '-')
        return ' '.join(words)

    def text(self):
        self.lines = ['queue P', 'queue Q', 'resource X 8', 'resource Y 8', 'timeline A 0', 'binary S', 'fence F',
                      'event E']
        for _ in range(self.random.randrange(4, 60)):
            line = self.inside() if self.open else self.outside()
            self.lines.append(self.damage(line) if self.faulty and self.random.random() < 0.05 else line)
        end = self.pick('\n', '\n', '\n', '', '\r\n')
        return (self.pick('\n', '\n', '\r\n').join(self.lines) + end).encode()


class Crowd:
    """Writes one capture with many accesses of one resource, each of some units in a window of it."""

    def __init__(self, seed):
        self.random = random.Random(seed)
        self.units = self.random.choice((64, 64, 1000, 2 ** 64 - 1))
        self.window = self.random.choice((0, self.units - 64))
        self.longest = self.random.choice((1, 3, 6))
        self.loose = self.random.choice((0, 0, 0.01, 0.05))
        self.sites = self.random.choice((['P'], ['P', 'P', 'P', 'Q'], ['P', 'Q'], ['P', 'P', 'Q', None]))
        self.stages = self.random.choice((['copy'], ['copy', 'compute'], ['copy', 'compute', 'copy+compute', 'all']))
        self.lines = ['queue P', 'queue Q', f'resource X {self.units}', 'submit P', 'signal S0 all', 'end']
        self.waits, self.kind = 0, 'write'

    def units_of_one(self):
        if self.random.random() < 0.04:
            return f'0 {self.units}'
        length = min(64, self.random.randrange(1, 2 ** self.random.randint(0, self.longest) + 1))
        return f'{self.window + self.random.randrange(65 - length)} {length}'

    def access(self, stage):
        if self.random.random() < 0.2:
            self.kind = self.random.choice(('read', 'write', 'write'))
        return f'{self.kind} X {self.units_of_one()}{stage}'

    def orders(self):
        return self.random.random() >= self.loose

    def batch(self, queue):
        """A batch that waits for the last one, if it is ordered, and signals."""
        self.lines += [f'submit {queue}'] + [f'wait S{self.waits} all'] * self.orders()
        self.waits += 1
        for _ in range(self.random.randrange(1, 4)):
            kind, stage = self.random.random(), self.random.choice(self.stages)
            if kind < 0.1:
                self.lines.append(f'barrier all {stage} X {self.units_of_one()}')
                continue
            self.lines += [f'barrier all {stage}'] * self.orders()
            self.lines += [self.access(f' {stage}') for _ in range(self.random.choice((1, 1, 1, 2, 5)))]
            self.lines += ['next'] * (self.kind == 'read') + [f'read X {self.units_of_one()} {stage}'] * (kind > 0.8)
        self.lines += [f'signal S{self.waits} all', 'end']

    def text(self):
        for _ in range(self.random.randrange(4, 24)):
            site = self.random.choice(self.sites)
            if site:
                self.batch(site)
            else:
                self.lines += ['idle P', 'idle Q'] * self.orders() + [self.access('') for _ in range(2)]
        names = [f'binary S{i}' for i in range(self.waits + 1)]
        return ('\n'.join(names + self.lines) + '\n').encode()


READS, WRITES = ['read', 'sampled', 'storage-read', 'attachment'], ['write', 'storage-write']


class Kinds:
    """Puts kinds of accesses behind some of the stages of a capture: mostly such as let what is ordered be seen."""

    def __init__(self, seed):
        self.random = random.Random(seed)
        self.named = self.random.choice((0.2, 0.6, 0.9))
        self.fitting = self.random.choice((0.5, 0.8, 0.95))

    def of(self, wanted, others):
        """Some kinds: of those that are wanted, and of others."""
        some = [self.random.choice(wanted)] if self.random.random() < self.fitting else []
        while not some or self.random.random() < 0.3:
            some.append(self.random.choice(wanted[:1] + others))
        return '+'.join(dict.fromkeys(some))

    def scope(self, stages, wanted, others):
        if stages == 'none' or self.random.random() > self.named:
            return stages
        return f'{stages}:{self.of(wanted, others)}'

    def line(self, line):
        words = line.split(' ')
        if words[0] in ('read', 'write') and len(words) == 5:
            words[4] = self.scope(words[4], *((READS, READS) if words[0] == 'read' else (WRITES, WRITES)))
        elif words[0] == 'barrier':
            words[1] = self.scope(words[1], WRITES, READS)
            words[2] = self.scope(words[2], READS, WRITES)
        elif words[0] in ('set', 'await'):
            words[2] = self.scope(words[2], *((WRITES, READS) if words[0] == 'set' else (READS, WRITES)))
        return ' '.join(words)

    def put(self, text):
        return '\n'.join(self.line(line) for line in text.decode().split('\n')).encode()


class Chain:
    """Writes one capture of a few batches whose commands mostly stand between barriers, each behind the last one."""

    def __init__(self, seed):
        self.random = random.Random(seed)
        self.stages = self.random.choice((['copy'], ['copy', 'compute'], ['color', 'fragment', 'vertex+compute']))
        self.loose = self.random.choice((0, 0, 0.05))

    def stage(self):
        return 'all' if self.random.random() < 0.3 else self.random.choice(self.stages)

    def command(self):
        units = f'{self.random.choice("XXY")} {self.random.choice(("0 8", "0 4", "4 4", "2 4"))}'
        kind = self.random.random()
        if kind < 0.15:
            yield f'barrier {self.stage()} {self.stage()} {units}'
        elif kind < 0.25:
            yield from (f'set E {self.stage()}', f'await E {self.stage()}')
        else:
            yield f'{self.random.choice(("read", "read", "write"))} {units} {self.stage()}'
        if self.random.random() >= self.loose:
            yield f'barrier {self.random.choice(("all", "all", self.stage()))} {self.stage()}'

    def text(self):
        lines = ['queue P', 'queue Q', 'resource X 8', 'resource Y 8', 'event E', 'timeline T 0', 'thread H']
        for number in range(self.random.randrange(1, 5)):
            lines.append(f'submit {self.random.choice("PPQ")}')
            lines += [f'wait T {number} {self.random.choice(("all", "all", self.stage()))}'] * (number > 0)
            for _ in range(self.random.randrange(1, 7)):
                lines += self.command()
            lines += [f'signal T {number + 1} all', 'end']
            if self.random.random() < 0.2:
                lines += [f'saw T {number + 1}', f'{self.random.choice(("read", "write"))} X 0 8']
        return ('\n'.join(lines) + '\n').encode()


class Crew:
    """Writes one capture of many threads and queues that do little and mostly are gone then. Some names come again."""

    def __init__(self, seed):
        self.random = random.Random(seed)
        self.loose = self.random.choice((0, 0, 0, 0.01, 0.03))
        self.stays = self.random.choice((0, 0.1, 0.5))
        self.names = self.random.choice((2, 5, 1000))
        self.lines = ['queue Q', 'thread M'] + [f'resource {name} 8' for name in 'XYZ'] + ['binary S', 'timeline A 0']
        self.lines += ['write Z 0 8', 'submit Q', 'write Y 0 8 copy', 'signal S all', 'signal A 1 all', 'end']
        self.there, self.value = {'Q', 'M'}, 1

    def orders(self):
        return self.random.random() >= self.loose

    def new(self, letter):
        """A name that isn't there; where all are, one of them is gone first."""
        free = [f'{letter}{i}' for i in range(self.names) if f'{letter}{i}' not in self.there]
        if not free:
            free = [f'{letter}{self.random.randrange(self.names)}']
            self.lines.append(f'gone {free[0]}')
        self.there.add(free[0])
        return free[0]

    def ends(self, name):
        if self.random.random() >= self.stays:
            self.there.remove(name)
            self.lines.append(f'gone {name}')

    def access(self, name, stage=''):
        kind = self.random.choice(('read', 'write')) if name == 'X' else 'read'
        first = self.random.randrange(8)
        return f'{kind} {name} {first} {self.random.randint(1, 8 - first)}{stage}'

    def accesses(self, stage, most=2):
        return [self.access(self.random.choice('XXYZ'), stage) for _ in range(self.random.randint(0, most))]

    def thread_comes(self):
        name = self.new('W')
        self.lines += [f'thread {name}'] + ['after M'] * self.orders()
        self.lines += [f'saw A {self.value}'] * self.orders() + self.accesses('')
        if self.random.random() < 0.5:
            self.batch('Q', self.random.random() < 0.5)
        self.lines += ['idle Q'] * self.orders() + self.accesses('', 1)
        self.lines += ['thread M'] + [f'after {name}'] * self.orders()
        self.ends(name)

    def batch(self, queue, semaphore):
        """A batch behind the last one, by the semaphore or by the timeline, if it is ordered; it signals both."""
        stage = self.random.choice(('copy', 'compute', 'all'))
        self.lines += [f'submit {queue}']
        self.lines += ['wait S all'] + [f'wait A {self.value} {stage}'] * (not semaphore) * self.orders()
        self.lines += [f'barrier all {stage}'] * self.orders() + self.accesses(f' {stage}')
        self.value += 1
        self.lines += ['signal S all', f'signal A {self.value} all', 'end']

    def queue_comes(self):
        name = self.new('P')
        self.lines += [f'queue {name}']
        self.batch(name, True)
        self.lines += [f'idle {name}'] * (self.random.random() < 0.3)
        self.ends(name)

    def text(self):
        for _ in range(self.random.choice((6, 12, 12, 24, 40))):
            if self.random.random() < 0.5:
                self.thread_comes()
            else:
                self.queue_comes()
            if self.random.random() < 0.1:
                self.lines += [f'saw A {self.value}'] * self.orders() + [self.access('X')]
        return ('\n'.join(self.lines) + '\n').encode()


def capture(seed):
    return (Crowd, Writer, Crew, Writer, Writer, Writer)[seed % 6](seed).text()


def capture_with_kinds(seed):
    """Such a capture, or a chain of commands, with kinds of accesses."""
    writer = Crowd if seed % 16 == 0 else (Writer, Chain, Chain, Chain)[seed % 4]
    return Kinds(seed).put(writer(seed).text())
