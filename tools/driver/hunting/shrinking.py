"""A failing script made smaller, in lines, queues and values, as long as it fails in the same way."""
import re

from playing import is_lawful

# So many runs in a row miss one that fails one time in fifty but one time in a hundred.
TRIES = 228
# How many jobs in a row are dropped at once.
SIZES = (32, 16, 8, 4, 3, 2, 1)
# The parts of a batch, by the first words of their lines.
PARTS = {'wait': 1, 'fill': 2, 'update': 2, 'copy': 2, 'signal': 3, 'fence': 4}
DECLARED = ('buffer', 'timeline', 'binary', 'fence', 'queue')


class Shrinker:
    """Makes a script smaller. `fails(data)` says of a lawful script whether it still fails in the same way."""

    def __init__(self, fails):
        self.fails = fails
        self.seen = {}

    def holds(self, units):
        """Whether a script of these units is lawful and fails."""
        data = joined(units)
        if data not in self.seen:
            self.seen[data] = is_lawful(data) and self.fails(data)
        return self.seen[data]

    def smaller(self, data):
        before, units = None, units_of(data)
        while units != before:
            before = units
            units = self.without_units(units)
            units = self.without_lines(units)
            units = self.without_pairs(units)
            units = self.with_joined(units)
            units = self.without_declarations(units)
            units = self.one_queue_less(units)
            units = self.with_ranks(units)
            units = self.with_less(units)
        return joined(units)

    def without_units(self, units):
        """Drops jobs, many at once first."""
        for size in SIZES:
            place = 0
            while place < len(units):
                fewer = units[:place] + units[place + size:]
                if self.holds(fewer):
                    units = fewer
                else:
                    place += max(1, size // 4)
        return units

    def without_lines(self, units):
        """Drops lines inside of batches."""
        for place in range(len(units)):
            number = 1
            while number < len(units[place]) - 1:
                lines = units[place][:number] + units[place][number + 1:]
                fewer = units[:place] + [lines] + units[place + 1:]
                if self.holds(fewer):
                    units = fewer
                else:
                    number += 1
        return units

    def without_pairs(self, units):
        """Drops pairs of the host's waits and polls."""
        for place in range(len(units)):
            words, at = units[place][0].split(), 3
            while words[0] == 'host' and words[2:3] in (['all'], ['any']) and at < len(words) and len(words) > 5:
                left = words[:at] + words[at + 2:]
                fewer = [*units[:place], [' '.join(left)], *units[place + 1:]]
                if self.holds(fewer):
                    words, units = left, fewer
                else:
                    at += 2
        return units

    def with_joined(self, units):
        """Makes one batch of two that stand one after the other."""
        place = 0
        while place + 1 < len(units):
            first, second = units[place], units[place + 1]
            if first[-1] == second[-1] == 'end':
                lines = sorted(first[1:-1] + second[1:-1], key=lambda line: PARTS[line.split()[0]])
                fewer = [*units[:place], [first[0], *lines, 'end'], *units[place + 2:]]
                if self.holds(fewer):
                    units = fewer
                    continue
            place += 1
        return units

    def without_declarations(self, units):
        """Drops what no job names."""
        words = {word for unit in units if unit[0].split()[0] not in DECLARED for line in unit for word in line.split()}
        fewer = [unit for unit in units if unit[0].split()[0] not in DECLARED or unit[0].split()[1] in words]
        return fewer if fewer != units and self.holds(fewer) else units

    def one_queue_less(self, units):
        """Gives the batches of a queue to another one, and makes queues threaded."""
        queues = [unit[0].split()[1] for unit in units if unit[0].startswith('queue ')]
        for one in queues:
            for other in queues:
                moved = [[f'submit {other}', *unit[1:]] if unit[0] == f'submit {one}' else unit for unit in units]
                if one != other and moved != units and self.holds(moved):
                    units = self.without_declarations(moved)
            plain = [[f'queue {one} threaded'] if unit[0].startswith(f'queue {one} ') else unit for unit in units]
            if plain != units and self.holds(plain):
                units = plain
        return units

    def with_ranks(self, units):
        """Replaces each value of a timeline by its place among them."""
        for name in [unit[0].split()[1] for unit in units if unit[0].startswith('timeline ')]:
            pair = re.compile(rf'\b{name} (\d+)')
            values = sorted({int(value) for unit in units for line in unit for value in pair.findall(line)})
            ranked = [[pair.sub(lambda found: f'{name} {values.index(int(found[1]))}', line) for line in unit]
                      for unit in units]
            if ranked != units and self.holds(ranked):
                units = ranked
        return units

    def with_less(self, units):
        """Replaces single numerals by lesser ones."""
        for place, unit in enumerate(units):
            for number, line in enumerate(unit):
                units = self.with_less_in(units, place, number, line.split())
        return units

    def with_less_in(self, units, place, number, words):
        for at, word in enumerate(words):
            if not word.isdigit():
                continue
            for lesser in sorted({0, 1, 4, int(word) // 2, int(word) - 1}):
                if not 0 <= lesser < int(word):
                    continue
                line = ' '.join([*words[:at], str(lesser), *words[at + 1:]])
                unit = [*units[place][:number], line, *units[place][number + 1:]]
                fewer = [*units[:place], unit, *units[place + 1:]]
                if self.holds(fewer):
                    words, units = line.split(), fewer
                    break
        return units


def units_of(data):
    """The lines of a script, those of a batch together; no comments."""
    units, is_open = [], False
    for line in data.decode('latin-1').split('\n'):
        line = ' '.join(line.split('#')[0].split())
        if not line:
            continue
        if is_open:
            units[-1].append(line)
        else:
            units.append([line])
        is_open = (is_open or line.startswith('submit ')) and line != 'end'
    return units


def joined(units):
    return ''.join(line + '\n' for unit in units for line in unit).encode('latin-1')
