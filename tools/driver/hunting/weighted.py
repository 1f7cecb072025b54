"""Random lawful scripts, weighted to what emulations of timelines get wrong."""
from lawful import SILENT, Lawful, kind
from reference import answer


class Weighted(Lawful):
    """Jobs of a lawful script: those of the second reading's generator, and some that it makes seldom."""

    def __init__(self, dice, without=()):
        # A driver is asked for what Vulkan's waits say alone: they hold back whole batches.
        super().__init__(dice, is_second=False)
        self.is_hosted = True
        # The first words of lines that aren't made.
        self.without = tuple(without)
        self.signaled = dict.fromkeys(dice.choice(['', 'S', 'SU', 'SU']), False)

    def steps(self):
        kept = dict(self.tops), dict(self.signaled), dict(self.fences)
        while True:
            made = [line if isinstance(line, list) else [line] for line in self.dice.choice(self.forms())()]
            if not any(line.startswith(self.without) for lines in made for line in lines):
                return made
            self.tops, self.signaled, self.fences = (dict(each) for each in kept)

    def forms(self):
        return [self.fenced_read] * 3 + [self.overtaken] * 3 + [self.held, self.early] * 2 + [
            self.rounds, self.any_of, self.chained] + [self.blocked, self.both] * 3 + [super().steps] * 2

    def name(self):
        return self.dice.choice('AB')

    def step_up(self, queue, name, *parts):
        """A batch that signals a timeline one step further, after these lines for its waits."""
        commands = [self.command()] if self.dice.random() < 0.4 else []
        return [f'submit {queue}', *parts, *commands, f'signal {name} {self.raised(name)}', 'end']

    def fenced_read(self, name=None):
        """A fence, and then a look at a timeline that the same batch signals."""
        fence, name, made = self.dice.choice('FG'), name or self.name(), []
        if self.fences[fence]:
            made += [f'host fence wait {fence}', f'host fence reset {fence}']
        batch = self.step_up(self.queue(), name, *self.waits(name))
        made.append(batch[:-1] + [f'fence {fence}', 'end'])
        self.fences[fence] = True
        made.append(self.dice.choice([f'host fence wait {fence}'] * 3 + ['host idle']))
        made.append(self.dice.choice([f'host read {name}', f'host poll all {name} {self.tops[name]}',
                                      f'host wait all {name} {self.tops[name]}', self.question()]))
        return made

    def waits(self, name):
        """What makes the last signal of a timeline sure for a batch, most of the time."""
        return [f'wait {name} {self.tops[name]}'] if self.dice.random() < 0.9 else []

    def overtaken(self):
        """A signal of the host just after a batch that signals the timeline, and looks at it."""
        name = self.name()
        made = self.fenced_read(name)[:-1]
        made.append(f'host signal {name} {self.raised(name)}')
        for _ in range(self.dice.choice([1, 1, 2])):
            made.append(self.dice.choice([f'host read {name}', f'host wait all {name} {self.tops[name]}', 'host idle']))
        return made

    def held(self):
        """A batch that waits for a reached value and for the host, while the timeline is signaled again and again."""
        name, other = self.dice.sample('AB', 2)
        queues = self.dice.sample(list(self.modes), 2)
        value = self.raised(other)
        made = [f'host wait all {other} {value - 1}'] if value > 1 else []
        if self.modes[queues[0]] != 'immediate':
            made.append([f'submit {queues[0]}', f'wait {name} {self.tops[name]}', f'wait {other} {value}', 'end'])
        made += [self.step_up(queues[1], name, *self.waits(name)) for _ in range(self.dice.randrange(1, 6))]
        return made + self.questions() + [f'host signal {other} {value}']

    def early(self):
        """A batch that waits for a signal which is written behind it."""
        name = self.name()
        first, second = self.dice.sample(list(self.modes), 2)
        waits = self.waits(name)
        signaling = self.step_up(second, name, *waits)
        waiting = [f'submit {first}', f'wait {name} {self.tops[name]}', self.command(), 'end']
        return [waiting, signaling] + self.questions()

    def blocked(self, *waits):
        """A batch that waits for the host's next signal and signals a timeline, at which the host looks before it.

        The looks have one answer: what is signaled early, and a wait that is dropped or is for less, shows in each run.
        """
        name, other = self.dice.sample('AB', 2)
        queues = [queue for queue, mode in self.modes.items() if mode != 'immediate']
        if not queues:
            return super().steps()
        made = [f'host wait all {name} {self.tops[name]} {other} {self.tops[other]}']
        reached, self.tops[other] = f'{name} {self.tops[name]}', self.tops[other] + 1
        left = f'{other} {self.tops[other]}'
        batch = self.step_up(self.dice.choice(queues), name, *(wait.format(reached) for wait in waits), f'wait {left}')
        looks = [f'host read {name}', f'host poll all {name} {self.tops[name]}', f'host poll all {reached} {left}',
                 f'host poll any {SILENT} 9 {name} {self.tops[name]}']
        made += [batch, *self.dice.sample(looks, self.dice.choice([1, 2, 2, 3]))]
        return made + [f'host signal {left}', f'host wait all {name} {self.tops[name]}', f'host read {name}']

    def both(self):
        """Waits for all that may act as waits for any: of a batch, one of whose waits is reached; or of the host, where
        one of two batches is slow."""
        if self.dice.random() < 0.5:
            return self.blocked('wait {}')
        name, other = self.dice.sample('AB', 2)
        quick = self.step_up(self.queue(), name, *self.waits(name))
        slow = self.step_up(self.queue(), other, *self.waits(other))
        slow[-2:-2] = [self.command()] * self.dice.choice([8, 16, 32])
        pairs = f'{name} {self.tops[name]} {other} {self.tops[other]}'
        look = self.dice.choice([f'host read {other}', f'host poll all {pairs}'])
        return [slow, quick, f'host wait all {pairs}', look]

    def rounds(self):
        """Many rounds on one timeline, over a queue or several, with looks between."""
        name, made = self.name(), []
        for _ in range(self.dice.randrange(3, 10)):
            made.append(self.step_up(self.queue(), name, f'wait {name} {self.tops[name]}'))
            if self.dice.random() < 0.3:
                made.append(self.question())
        return made

    def any_of(self):
        """Waits and polls for any of several pairs, and what they show."""
        return [f'host wait any {SILENT} 9 {self.pairs()} {self.pair_of_top()}', self.question(),
                f'host poll any {self.pairs()} {self.pair_of_top()}', self.question()]

    def pair_of_top(self):
        name = self.name()
        return f'{name} {self.tops[name]}'

    def chained(self):
        """A chain of batches by binary semaphores."""
        made = []
        for name in list(self.signaled):
            for _ in range(self.dice.randrange(1, 4)):
                waits = [f'wait {name}'] if self.signaled[name] else []
                made.append([f'submit {self.queue()}', *waits, self.command(), f'signal {name}', 'end'])
                self.signaled[name] = True
        return made or self.questions()


def lawful_script(dice, without=()):
    """A lawful script, as bytes, with no line that begins with one of these."""
    while True:
        made = Weighted(dice, without)
        for _ in range(dice.randrange(2, 10)):
            made.grow()
        if dice.random() < 0.2:
            made.shuffle()
        data = ''.join(made.text(made.jobs)).encode()
        if kind(*answer(data)) == 'run':
            return data
