"""A script as lines that know their numbers in the script that was given, and edits of it."""


class Edit:
    """One change: `insert` puts a line before another, `replace` and `delete` change a line, whose old text is kept."""

    def __init__(self, what, line, text=None, old=None):
        self.what, self.line, self.text, self.old = what, line, text, old


def insert(line, text):
    return Edit('insert', line, text)


def replace(line, text):
    return Edit('replace', line, text)


def delete(line):
    return Edit('delete', line)


class Draft:
    """Lines with keys: the number that a line had at first, or one below 0 for each line that was put in.

    The last key is that of the end, where a fault of what is missing is.
    """

    def __init__(self, lines, keys):
        self.lines, self.keys = lines, keys

    @classmethod
    def of(cls, data):
        lines = data.split(b'\n')
        if lines[-1] == b'':
            lines.pop()
        return cls(lines, list(range(1, len(lines) + 2)))

    def data(self):
        return b'\n'.join([*self.lines, b''])

    def origin(self, line):
        """The number of a line at first, or None for one that was put in."""
        key = self.keys[min(line, len(self.keys)) - 1]
        return key if key > 0 else None

    def near(self, line):
        """The first number of a line that stood there at first, from this one on."""
        place = min(line, len(self.keys)) - 1
        while self.keys[place] <= 0:
            place += 1
        return self.keys[place]

    def apply(self, edits):
        """The lines after these edits, whose numbers are those of lines here."""
        ahead, instead = {}, {}
        for edit in edits:
            if edit.what == 'insert':
                ahead.setdefault(edit.line, []).append(edit.text.encode('latin-1'))
            else:
                instead[edit.line] = edit.text
        lines, keys, fresh, done = [], [], min(0, min(self.keys)), 0
        for number in sorted({*ahead, *instead}):
            lines += self.lines[done:number - 1]
            keys += self.keys[done:number - 1]
            for text in ahead.get(number, ()):
                fresh -= 1
                lines.append(text)
                keys.append(fresh)
            text = instead.get(number, self.lines[number - 1] if number <= len(self.lines) else None)
            if text is not None:
                lines.append(text.encode('latin-1') if isinstance(text, str) else text)
                keys.append(self.keys[number - 1])
            done = number
        return Draft(lines + self.lines[done:], keys + self.keys[min(done, len(self.lines)):])

    def without(self, line):
        """The lines with an empty one in the place of this one."""
        return Draft([b'' if at == line else text for at, text in enumerate(self.lines, 1)], self.keys)

    def edits_to(self, other):
        """The edits of these lines that give a later draft, with the numbers that lines had at first."""
        places = {key: place for place, key in enumerate(self.keys, 1)}
        kept = set(other.keys)
        edits = [Edit('delete', self.near(place), None, self.lines[place - 1].decode('latin-1'))
                 for key, place in places.items() if key not in kept]
        for place, (key, line) in enumerate(zip(other.keys, other.lines), 1):
            if key not in places:
                edits.append(insert(other.near(place), line.decode('latin-1')))
            elif line is not self.lines[places[key] - 1] and line != self.lines[places[key] - 1]:
                edits.append(Edit('replace', self.near(places[key]), line.decode('latin-1'),
                                  self.lines[places[key] - 1].decode('latin-1')))
        return sorted(edits, key=lambda edit: (edit.line, edit.what != 'insert'))
