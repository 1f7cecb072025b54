"""A second reading of which texts a script may give: line by line, and what might have stood where none fits."""
import io
import re

ANSWER = re.compile(rb'([1-9]\d{0,9}) (ok|timeout|not-ready|value (?:0|[1-9]\d{0,19}))\n')

# How many of the lines that might stand somewhere are shown.
MOST_SHOWN = 8


class Misfit:
    """The first line of a text that no run gives after those before it, and the lines that might stand there."""

    def __init__(self, line, found, possible):
        self.line, self.found, self.possible = line, found, possible

    def text(self):
        """The line, and what might stand there: the first and the last ones where they are many."""
        shown = [quoted(line) for line in self.possible]
        if len(shown) > MOST_SHOWN:
            shown[MOST_SHOWN // 2:1 - MOST_SHOWN // 2] = [f'{len(shown) - MOST_SHOWN + 1} more']
        return f'line {self.line}: no run gives {quoted(self.found)} here, only {", ".join(shown)}'


def quoted(line):
    if not line:
        return 'the end of the text'
    return f'`{line.decode("latin-1")[:-1]}`' if line.endswith(b'\n') else f'{line.decode("latin-1")!r} without its end'


class Outputs:
    """The texts that a lawful script may give."""

    def __init__(self, script):
        self.plan, self.windows = script.plan, script.windows
        self.steps = [self.plan.jobs[h] for h in self.windows.asked]
        self.buffers = io.BytesIO(script.buffers_text()).readlines()

    def misfit(self, text):
        """The first line that doesn't fit, or None."""
        lines = io.BytesIO(text).readlines()
        answers = self.answers(lines)
        wrong = self.windows.first_misfit(answers)
        if wrong is None and len(answers) < len(self.steps):
            wrong = len(answers)
        if wrong is not None:
            possible = [b'%d %s\n' % (self.steps[wrong].line, answer.encode())
                        for answer in self.windows.possible(answers[:wrong])]
            return Misfit(wrong + 1, lines[wrong] if wrong < len(lines) else b'', possible)
        return self.buffer_misfit(lines)

    def answers(self, lines):
        """The first answers of a text, as far as lines have the form and the number of an answer that is due."""
        found = []
        for step, line in zip(self.steps, lines):
            read = ANSWER.fullmatch(line)
            if not read or int(read[1]) != step.line:
                break
            found.append(read[2].decode())
        return found

    def buffer_misfit(self, lines):
        """The first line behind the answers that isn't the one that each run gives."""
        place = len(self.steps)
        for wanted in [*self.buffers, b'']:
            found = lines[place] if place < len(lines) else b''
            place += 1
            if found != wanted:
                return Misfit(place, found, [wanted])
        return None
