"""The picture of a trace: rows of turns from left to right, with a lane for each actor and for each point."""
from svg import INK, MOST, PALE, RED, RULE, Svg, width_of
from trace import NoTrace

LANE, TOP, BAR, LEGEND, GAP = 46, 34, 20, 40, 16
LEAST_COLUMN, MOST_COLUMN = 76, 180
# How wide a row is as long as the picture isn't too high, and how high that is.
WIDE, HIGH = 1_500, 16_000
STATES = [('taken', '#d9d9d9', INK), ('pending', '#9ecae1', INK), ('signaled', '#2171b5', '#ffffff'),
          ('completed', '#fdae6b', INK)]
COLOURS = {name: (fill, ink) for name, fill, ink in STATES}


class Row:
    """Some turns side by side, and the points that carry something meanwhile."""

    def __init__(self, picture, turns):
        self.turns = turns
        self.column = {turn.number: place for place, turn in enumerate(turns)}
        self.first, self.until = turns[0].number, turns[-1].last + 1
        self.actors = [actor for actor in picture.actors if any(turn.actor == actor for turn in turns)]
        self.points = [(number, point) for number, point in sorted(picture.points.items())
                       if any(self.shares(since, until) for since, until, *_ in point.bars + point.references)]

    def shares(self, since, until):
        return since < self.until and until >= self.first

    def high(self):
        return TOP + LANE * len(self.actors) + sum(self.point_high(point) for _, point in self.points) + GAP

    def point_high(self, point):
        references = [each for each in point.references if self.shares(*each[:2])]
        return max(LANE, BAR + 24 + 12 * len(references))

    def place(self, number):
        """The column of a turn in this row; of one before it the left edge, and of one behind it the right edge."""
        if number < self.first:
            return -0.5
        if number >= self.until:
            return len(self.turns)
        while number not in self.column:
            number -= 1
        return self.column[number]


class TracePicture:
    def __init__(self, turns, points, script):
        self.turns, self.points, self.script = turns, points, script
        self.svg = Svg()
        self.actors = list(dict.fromkeys(turn.actor for turn in turns))
        lanes = self.actors + [f'point {number}' for number in points]
        self.left = max([72] + [16 + width_of(name, 12, 'bold') for name in lanes])
        widest = max([0] + [max(width_of(text, 10), width_of(turn.words[0], 11, 'bold'))
                            for turn in turns for text in [self.detail(turn)]])
        self.wide = min(MOST_COLUMN, max(LEAST_COLUMN, widest + 14))
        self.rows = self.in_rows()

    def in_rows(self):
        """As few columns as keep the picture low enough."""
        columns = int(WIDE / self.wide)
        while True:
            rows = [Row(self, self.turns[place:place + columns]) for place in range(0, len(self.turns), columns)]
            high = sum(row.high() for row in rows)
            if high <= HIGH or columns >= len(self.turns):
                break
            columns *= 2
        width = self.left + min(columns, len(self.turns)) * self.wide
        if high > MOST or width > MOST:
            raise NoTrace('it has more turns than a picture can show: choose some with --turns FROM-TO')
        return rows

    def draw(self, last):
        width = max([640] + [self.left + len(row.turns) * self.wide + 10 for row in self.rows])
        y = 0
        for row in self.rows:
            self.draw_row(row, y, width)
            y += row.high()
        self.legend(y + 10, self.ended(last))
        return self.svg.whole(width, y + LEGEND)

    def ended(self, last):
        """The last line of the trace; with a script the lines that aren't finished too."""
        if last == 'finished' or not self.script:
            return last
        finished = {int(turn.words[1]) for turn in self.turns if turn.words[0] == 'finish'}
        jobs = [number for number, line in enumerate(self.script, 1) if line.split()[:1] in (['submit'], ['host'])
                and ['schedule'] not in [earlier.split('#')[0].split() for earlier in self.script[:number]]]
        left = [number for number in jobs if number not in finished]
        more = f' and {len(left) - 6} more' if len(left) > 6 else ''
        return f'{last}: of line{"s" * (len(left) > 1)} {", ".join(map(str, left[:6]))}{more}'

    def x(self, row, number):
        return self.left + row.place(number) * self.wide

    def draw_row(self, row, y, width):
        y += TOP
        self.svg.text(8, y - 10, 'turn', 10, '#666666')
        for turn in row.turns:
            name = f'{turn.written}' if turn.number == turn.last else f'{turn.written}-{turn.last_written}'
            self.svg.text(self.x(row, turn.number) + self.wide / 2, y - 10, name, 10, '#666666', 'middle')
        for actor in row.actors:
            self.lane(y, actor, width)
            for turn in row.turns:
                if turn.actor == actor:
                    self.event(row, turn, y)
            y += LANE
        for number, point in row.points:
            self.lane(y, f'point {number}', width)
            self.point(row, y, point)
            y += row.point_high(point)
        self.svg.line(0, y, width, y, RULE)

    def lane(self, y, name, width):
        self.svg.line(0, y, width, y, RULE)
        self.svg.text(8, y + LANE / 2 + 4, name, 12, weight='bold')

    def event(self, row, turn, y):
        x, middle = self.x(row, turn.number), self.x(row, turn.number) + self.wide / 2 - 1
        if turn.is_idle:
            count = turn.last - turn.number + 1
            said = {'-': 'blocked', '.': 'ended'}[turn.words[0]] + (f' {count} times' if count > 1 else '')
            self.svg.text(middle, y + 26, said, ink=PALE, anchor='middle', room=self.wide - 4)
            return
        detail, room = self.detail(turn), self.wide - 10
        self.svg.box(x + 2, y + 5, self.wide - 6, LANE - 10, '#f7fbff', title=f'{turn.words[0]} {detail}')
        self.svg.text(middle, y + 19, turn.words[0], anchor='middle', weight='bold', room=room)
        self.svg.text(middle, y + 34, detail, 10, anchor='middle', room=room)

    def detail(self, turn):
        word, *rest = turn.words
        if word in ('submit', 'release', 'start', 'finish', 'apply'):
            number = int(rest[0])
            said = self.script[number - 1].split('#')[0].split() if number <= len(self.script) else []
            return f'{number}: {" ".join(said[:2])}' if said else f'line {number}'
        if word == 'take':
            return f'{rest[0]} {rest[1]}, {rest[2]} point {rest[3]}'
        if word in ('refer', 'look', 'unref'):
            return f'point {rest[0]} of {rest[1]} {rest[2]}'
        if word == 'bind':
            return f'{rest[0]} {rest[1]} to point {rest[2]}'
        if word == 'free':
            return f'point {rest[0]}'
        return ' '.join(rest)

    def span(self, row, since, until):
        """From where to where a bar goes in a row: from the middle of a turn to that of another, or to the edges."""
        x = self.x(row, since) + self.wide / 2
        to = self.x(row, until) + (self.wide / 2 if until < row.until else 0)
        return x, to

    def point(self, row, y, point):
        for since, until, state, carried in point.bars:
            if row.shares(since, until):
                fill, ink = COLOURS[state]
                x, to = self.span(row, since, until)
                self.svg.box(x, y + 5, to - x, BAR, fill, title=f'{state}: {carried}')
                if to - x > 24:
                    self.svg.text(x + 4, y + 19, carried, 10, ink, room=to - x - 8)
        held = [each for each in sorted(point.references) if row.shares(*each[:2])]
        for place, (since, until, actor) in enumerate(held):
            x, to = self.span(row, since, until)
            high = y + BAR + 10 + 12 * place
            self.svg.line(x, high, to, high, RED, 2)
            right = self.left + len(row.turns) * self.wide + 8
            self.svg.text(min(x + 2, right - width_of(actor, 9)), high + 10, actor, 9, RED)

    def legend(self, y, last):
        x = 8
        for name, fill, ink in STATES:
            self.svg.box(x, y, 74, 16, fill)
            self.svg.text(x + 37, y + 12, name, 10, ink, 'middle')
            x += 82
        self.svg.line(x, y + 8, x + 24, y + 8, RED, 2)
        self.svg.text(x + 30, y + 12, 'a reference, and who holds it', 10, RED)
        self.svg.text(x + 230, y + 12, last, 10, INK)
