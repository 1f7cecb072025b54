"""Random scripts that are lawful, or a few changes away from it: batches, and steps of the host among them."""
from reference import answer

# A timeline that nothing signals.
SILENT = 'C'


def kind(status, text):
    """What a text says: the fault, or that the script was run or played."""
    if status:
        return text.decode().split(':')[1].strip()
    return 'run' if b'finished' not in text else 'unfinished' if b'unfinished' in text else 'finished'


class Lawful:
    """Jobs that are mostly in a sure order, each a list of its lines, and what they left."""

    def __init__(self, dice, is_second=None):
        self.dice = dice
        self.is_hosted = dice.random() < 0.7
        # Some have many queues that the host serves, between whose steps others come.
        modes = ['threaded'] + ['deferred'] * 3 if dice.random() < 0.15 else ['threaded'] * 3 + ['immediate', 'deferred']
        self.modes = {name: dice.choice(modes) for name in 'PQRT'[:dice.randrange(2, 5)]}
        self.tops = {'A': dice.choice([0, 0, 3]), 'B': dice.choice([0, 0, 5]), SILENT: dice.choice([0, 2])}
        self.sizes = dict(zip('XYZ', dice.choices([4, 8, 8, 12], k=dice.randrange(1, 4))))
        # Whether it is of version 2.
        self.is_second = dice.random() < 0.4 if is_second is None else is_second
        declared = ['version 2'] if self.is_second else []
        declared += [f'queue {name} {mode}' for name, mode in self.modes.items()]
        declared += [f'timeline {name} {top}' for name, top in self.tops.items()]
        declared += [f'buffer {name} {size}' for name, size in self.sizes.items()]
        declared += ['binary S', 'binary U', 'fence F', 'fence G']
        self.declared = declared
        self.signaled = dict.fromkeys(dice.choice(['', 'S', 'SU']), False)
        # Whether each fence was named since its last reset.
        self.fences = {'F': False, 'G': False}
        self.jobs = []

    def text(self, jobs):
        return [line + '\n' for line in self.declared + [line for lines in jobs for line in lines]]

    def found(self, jobs):
        """What is said of the script with these jobs."""
        return kind(*answer(''.join(self.text(jobs)).encode()))

    def grow(self):
        """Adds jobs: mostly such that the script stays lawful."""
        for _ in range(6):
            kept = dict(self.tops), dict(self.signaled), dict(self.fences)
            made = self.steps() if self.is_hosted and self.dice.random() < 0.55 else [self.batch()]
            found = self.found(self.jobs + made)
            if found == 'run' or self.dice.random() < (0.2 if found in ('race', 'fence busy', 'not pending') else 0.02):
                break
            self.tops, self.signaled, self.fences = kept
            made = [[f'submit {self.queue()}', 'end']]
        self.jobs += made

    def queue(self, mode=None):
        return self.dice.choice([name for name in self.modes if mode in (None, self.modes[name])])

    # Batches.

    def batch(self, queue=None):
        dice, queue = self.dice, queue or self.queue()
        waits, signals = [], []
        for name, top in list(self.tops.items()):
            if dice.random() < 0.4:
                waits.append(f'wait {name} {top if dice.random() < 0.7 else dice.randrange(top + 1)}')
            if dice.random() < 0.4 and name != SILENT:
                signals.append(f'signal {name} {self.raised(name)}')
        for name in self.signaled:
            if self.signaled[name] and dice.random() < (0.5 if self.modes[queue] != 'immediate' else 0.1):
                waits.append(f'wait {name}')
                self.signaled[name] = False
            if not self.signaled[name] and dice.random() < 0.3:
                signals.append(f'signal {name}')
                self.signaled[name] = True
        # Such a queue can't hold a batch back, so most of its waits must name what is surely pending.
        if self.modes[queue] == 'immediate' and dice.random() < 0.5:
            waits = []
        dice.shuffle(waits)
        dice.shuffle(signals)
        commands = [self.command() for _ in range(dice.choice([0, 1, 1, 2, 3] if self.is_second else [0, 1, 1, 1, 2]))]
        waits = [self.held_wait(wait, len(commands)) for wait in waits]
        return [f'submit {queue}', *waits, *commands, *signals, *self.named(), 'end']

    def held_wait(self, wait, count):
        """A wait of a batch with so many commands: in version 2 it may hold back the later ones alone."""
        if not self.is_second or self.dice.random() < 0.4:
            return wait
        return f'{wait} from {self.dice.randrange(1, count + 2)}'

    def raised(self, name):
        self.tops[name] += self.dice.choice([1, 1, 1, 2, 4])
        return self.tops[name]

    def named(self):
        """The line that names a fence which is free, or no line."""
        free = [name for name, is_used in self.fences.items() if not is_used or self.dice.random() < 0.02]
        if not free or self.dice.random() < (0.7 if self.is_hosted else 0.9):
            return []
        name = self.dice.choice(free)
        self.fences[name] = True
        return [f'fence {name}']

    def command(self):
        dice = self.dice
        name = dice.choice(list(self.sizes))
        place = dice.randrange(0, self.sizes[name], 4)
        form = dice.random()
        if form < 0.35:
            return f'fill {name} {place} {dice.choice(["4", "whole"])} {dice.randrange(9)}'
        if form < 0.5:
            return f'update {name} {place} {dice.randrange(2 ** 32):08x}'
        other = dice.choice(list(self.sizes))
        size = dice.randrange(1, 3 if name == other else 5)
        start, room = dice.randrange(self.sizes[name] - size + 1), self.sizes[other]
        places = [place for place in range(room - size + 1) if name != other or abs(start - place) >= size]
        return f'copy {name} {start} {other} {dice.choice(places)} {size}' if places else f'fill {name} 0 whole 7'

    # Steps of the host, some with batches around them.

    def steps(self):
        made = self.dice.choice([self.questions, self.questions, self.wait, self.wait, self.signals, self.unblocked,
                                 self.fenced, self.fenced, self.between, self.idle])()
        return [line if isinstance(line, list) else [line] for line in made]

    def pair(self):
        """A timeline with a value: at the edge of what is signaled most of the time."""
        name = self.dice.choice('AABB' + SILENT)
        return f'{name} {max(0, self.tops[name] + self.dice.choice([-3, -1, 0, 0, 0, 0, 1]))}'

    def pairs(self):
        return ' '.join(self.pair() for _ in range(self.dice.choice([1, 1, 2, 2, 3])))

    def questions(self):
        """Some looks at what goes on, one after another."""
        return [self.question() for _ in range(self.dice.choice([1, 1, 2, 3]))]

    def question(self):
        form = self.dice.random()
        if form < 0.4:
            return f'host read {self.dice.choice("AAB" + SILENT)}'
        if form < 0.5:
            return f'host fence poll {self.dice.choice("FG")}'
        return f'host poll {self.dice.choice(["all", "any", "any"])} {self.pairs()}'

    def wait(self):
        """A wait for what is signaled, or for any of several pairs, the first of which may have no signal."""
        name = self.dice.choice('AB')
        reached = f'{name} {self.tops[name]}'
        form = self.dice.random()
        if form < 0.4:
            return [f'host wait all {reached}' + (' ' + self.pair() if self.dice.random() < 0.5 else '')]
        if form < 0.7:
            return [f'host wait any {SILENT} 9 {reached}' + (' ' + self.pair() if self.dice.random() < 0.3 else '')]
        return [f'host wait any {self.pairs()} {reached}']

    def ahead(self, name):
        """What makes the last signal of a timeline sure for the host, or nothing."""
        return self.dice.choice([[f'host wait all {name} {self.tops[name]}']] * 4 + [['host idle']] * 2 + [[]])

    def signals(self):
        name = self.dice.choice('AB')
        return self.ahead(name) + [f'host signal {name} {self.raised(name)}']

    def unblocked(self):
        """A batch that waits for a signal of the host, which stands behind it."""
        name = self.dice.choice('AB')
        made, value = self.ahead(name), self.raised(name)
        batch = self.batch()
        if self.modes[batch[0].split()[1]] != 'immediate' or self.dice.random() < 0.1:
            count = sum(line.split()[0] in ('fill', 'update', 'copy') for line in batch)
            batch.insert(1, self.held_wait(f'wait {name} {value}', count))
            batch = [line for line in batch if not line.startswith(f'signal {name} ')]
        asked = self.questions() if self.dice.random() < 0.3 else []
        self.tops[name] = value
        return made + [batch] + asked + [f'host signal {name} {value}']

    def fenced(self):
        """A fence is named if it was free, then is waited for or looked at, and then is reset, most of the time."""
        name, made = self.dice.choice('FG'), []
        if not self.fences[name]:
            others = {**self.fences, name: True}
            batch = [line for line in self.batch() if not line.startswith('fence')]
            made.append(batch[:-1] + [f'fence {name}', 'end'])
            self.fences = others
        if self.dice.random() < 0.4:
            made.append(f'host fence poll {name}')
        made += self.dice.choice([[f'host fence wait {name}']] * 5 + [['host idle'], []])
        if self.dice.random() < 0.7:
            made += [f'host fence reset {name}'] * self.dice.choice([1, 1, 1, 2])
            self.fences[name] = False
        if self.dice.random() < 0.3:
            made.append(f'host fence poll {name}')
        return made

    def between(self):
        """Steps of the host between two batches of one queue, an immediate one where there is one."""
        queue = self.queue('immediate' if 'immediate' in self.modes.values() else None)
        return [self.batch(queue), self.question(), self.batch(queue)] + self.questions()

    def idle(self):
        return ['host idle'] + (self.questions() if self.dice.random() < 0.5 else [])

    # Changes, after which the script may not be lawful.

    def shuffle(self):
        """Puts the batches between steps of the host in another order that keeps that of each queue.

        So waits come to name later signals.
        """
        made, part = [], []
        for lines in self.jobs + [['host']]:
            if lines[0].startswith('submit'):
                part.append(lines)
                continue
            order = list(part)
            self.dice.shuffle(order)
            for other in order:
                made.append(next(lane for lane in part if lane[0] == other[0]))
                part = [lane for lane in part if lane is not made[-1]]
            made.append(lines)
        self.jobs = made[:-1]

    def change(self):
        """Changes a line or a job."""
        dice, lines = self.dice, self.dice.choice(self.jobs)
        commands = [place for place, line in enumerate(lines) if line.split()[0] in ('fill', 'update', 'copy')]
        inner = [place for place, line in enumerate(lines) if line.split()[0] in ('wait', 'signal', 'host')]
        form = dice.random()
        if form < 0.3 and commands:
            lines[dice.choice(commands)] = self.command()
        elif form < 0.5 and inner:
            del lines[dice.choice(inner)]
            if not lines:
                lines.append(self.question())
        elif form < 0.8 and inner:
            place = dice.choice(inner)
            lines[place] = self.moved(lines[place])
        elif form < 0.9 and lines[0].startswith('submit'):
            lines[0] = f'submit {self.queue()}'
        else:
            self.jobs.remove(lines)
            self.jobs.insert(dice.randrange(len(self.jobs) + 1), lines)

    def moved(self, line):
        """The line with another last value, where it ends with one."""
        words = line.split()
        if words[-1].isdigit():
            words[-1] = str(max(0, int(words[-1]) + self.dice.choice([-2, -1, 1, 1, 2])))
        return ' '.join(words)
