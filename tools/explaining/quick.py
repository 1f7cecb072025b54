"""Readers for which large scripts are quick: most of their lines are waits and signals of timelines."""
import re

from blocks import BlockReader
from lowering import Refusal
from reference import PARTS, Fault, Reader, lines_of

ODD = re.compile(rb'[^\t\x20-\x7e]')
MOST_MARKS = 16
# The part of a batch to which a line belongs, and the list in which it is kept.
PLACES = {b'wait': (PARTS['wait'], 'waits'), b'signal': (PARTS['signal'], 'signals')}


class Quick:
    """Takes the edges of batches at once, and waits and signals of timelines with a decimal numeral, where there is no
    fault. All else, and each fault of a form, is for the reader below."""

    def read_all(self, data):
        lines = lines_of(data)
        try:
            self.read_some(lines)
            self.number = len(lines) + 1
            if self.is_open():
                raise Fault('syntax')
        except Fault as fault:
            raise Refusal(f'{fault}: line {self.number}')

    def read_some(self, lines):
        """Reads a text's first lines; raises the Fault of one, of which the number is kept."""
        is_plain = ODD.search(b' '.join(lines)) is None
        for number, line in enumerate(lines, 1):
            words = line.split() if is_plain else ()
            if not (self.takes_mark(words, number) if len(words) == 3 else self.takes_edge(words, number)):
                self.read(line, number)

    def takes_mark(self, words, number):
        """Takes a wait or a signal of a timeline."""
        head, name, value = words
        if head not in PLACES or not self.batch or not value.isdigit() or len(value) > 19:
            return False
        part, place = PLACES[head]
        kind, t = self.names.get(name, ('', 0))
        marks = getattr(self.batch, place)
        if kind != 'timeline' or part < self.part or len(marks) >= MOST_MARKS:
            return False
        marks.append((number, t, int(value)))
        if place == 'waits':
            self.batch.held_from.append(1)
        self.part = part
        return True

    def takes_edge(self, words, number):
        """Takes the first or the last line of a batch."""
        if words == [b'end'] and self.batch:
            self.number = number
            self.end(words)
            return True
        if len(words) != 2 or words[0] != b'submit' or self.batch or self.is_elsewhere():
            return False
        if self.names.get(words[1], ('', 0))[0] != 'queue':
            return False
        self.number, self.has_begun = number, True
        self.submit(words)
        self.part = 0
        return True

    def is_elsewhere(self):
        """Whether the line stands in a schedule, or in the block of a thread."""
        return self.turns_given is not None or getattr(self, 'thread_open', None) is not None


class QuickReader(Quick, Reader):
    pass


class QuickBlockReader(Quick, BlockReader):
    pass
