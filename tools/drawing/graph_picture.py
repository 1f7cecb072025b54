"""The picture of a graph of jobs: a column for each queue and one for the host, from top to bottom in their order."""
import collections

from svg import INK, MOST, RED, RULE, Svg, width_of

TOP, GAP, ROW, SPACE, LEAST, WIDEST = 40, 34, 15, 150, 120, 260
# How far apart links come in.
STEP = 13
EDGE = '#444444'


class TooLarge(Exception):
    """A graph that no picture can show."""


def refuse_long_columns(plan):
    """Stops before a graph is made of a plan, where the boxes of one column alone are higher than a picture can be."""
    jobs = collections.Counter(job.queue for job in plan.jobs)
    if max(jobs.values(), default=0) * (12 + ROW + GAP) > MOST:
        raise TooLarge()


class GraphPicture:
    def __init__(self, graph):
        self.graph, self.svg = graph, Svg()
        texts = [text for node in graph.nodes for text in [node.title, *node.lines]]
        widest = max([0] + [width_of(text, 11, 'bold') for text in texts])
        self.wide = min(WIDEST, max(LEAST, widest + 16))
        self.column = {lane: 20 + place * (self.wide + SPACE) for place, lane in enumerate(graph.lanes)}
        self.level = levels(graph)
        # The links that come in at each side of a job.
        self.incoming = {}
        for edge in graph.edges:
            self.incoming.setdefault(self.side(edge), []).append(edge)
        self.place_rows()

    def side(self, edge):
        """At which side of which job a link comes in: from the left, the right, or its own column."""
        x, to_x = (self.column[self.graph.nodes[j].lane] for j in (edge.start, edge.end))
        return edge.end, (x > to_x) - (x < to_x)

    def place_rows(self):
        """How high each level stands: as high as its highest node asks."""
        highs = {}
        for j, node in enumerate(self.graph.nodes):
            highs[self.level[j]] = max(highs.get(self.level[j], 0), self.node_high(j))
        self.top, y = {}, TOP
        for level in sorted(highs):
            self.top[level] = y
            y += highs[level] + GAP
        self.high = y + ROW * (len(self.graph.faults) + 1)
        longest = max([0] + [width_of(fault, 12, 'bold') for fault in self.graph.faults])
        self.width = max(100 + len(self.graph.lanes) * (self.wide + SPACE) - SPACE, 40 + longest)
        if self.high > MOST or self.width > MOST:
            raise TooLarge()

    def node_high(self, j):
        links = max(len(self.incoming.get((j, side), [])) for side in (-1, 1))
        return max(12 + ROW * (1 + len(self.graph.nodes[j].lines)), 8 + STEP * links)

    def draw(self):
        for lane, x in self.column.items():
            self.svg.text(x + self.wide / 2, 22, lane, 13, anchor='middle', weight='bold', room=self.wide)
            foot = self.high - ROW * len(self.graph.faults) - GAP
            self.svg.line(x + self.wide / 2, 30, x + self.wide / 2, foot, RULE)
        for edge in self.graph.edges:
            self.edge(edge)
        for j, node in enumerate(self.graph.nodes):
            self.node(j, node)
        for place, fault in enumerate(self.graph.faults):
            self.svg.text(20, self.high - ROW * (len(self.graph.faults) - place), fault, 12, RED, weight='bold')
        return self.svg.whole(self.width, self.high)

    def node(self, j, node):
        x, y, ink = self.column[node.lane], self.top[self.level[j]], RED if node.fault else INK
        title = '\n'.join([node.title, *node.lines] + ([node.fault] if node.fault else []))
        self.svg.box(x, y, self.wide, self.node_high(j), '#fff5f0' if node.fault else '#f7fbff',
                     RED if node.fault else '#666666', title)
        for place, text in enumerate([node.title, *node.lines]):
            self.svg.text(x + 8, y + 17 + ROW * place, text, 11, ink, weight='bold' if place == 0 else 'normal',
                          room=self.wide - 16)

    def edge(self, edge):
        start, end = self.graph.nodes[edge.start], self.graph.nodes[edge.end]
        points, label = (self.down if start.lane == end.lane else self.across)(edge)
        ink = RED if edge.is_fault or edge.is_broken else EDGE
        self.svg.curve(points, ink, '5 3' if edge.is_fault or edge.is_broken else '', not edge.is_fault)
        self.svg.text(*label[:2], edge.why, 9, ink, label[2], room=SPACE - 12)

    def down(self, edge):
        """A link in one column: from foot to head, or round the side where it leads up."""
        x = self.column[self.graph.nodes[edge.start].lane]
        y, to_y = self.top[self.level[edge.start]], self.top[self.level[edge.end]]
        at, foot, right = x + self.wide / 2, y + self.node_high(edge.start), x + self.wide
        if to_y > foot:
            return [(at, foot), (at, foot), (at, to_y), (at, to_y)], (at + 6, to_y - 8, 'start')
        bend = right + 50
        return ([(right, y + 12), (bend, y + 12), (bend, to_y + 12), (right, to_y + 12)],
                (right + 20, (y + to_y) / 2, 'start'))

    def across(self, edge):
        """A link between columns, from side to side: the links that come in at one side stand below one another."""
        x, to_x = (self.column[self.graph.nodes[j].lane] for j in (edge.start, edge.end))
        to_right = to_x > x
        x, to_x = (x + self.wide, to_x) if to_right else (x, to_x + self.wide)
        place = self.incoming[self.side(edge)].index(edge)
        y = self.top[self.level[edge.start]] + self.node_high(edge.start) - 8
        to_y = self.top[self.level[edge.end]] + 10 + STEP * place
        bend, away = (60, -8) if to_right else (-60, 8)
        return ([(x, y), (x + bend, y), (to_x - bend, to_y), (to_x, to_y)],
                (to_x + away, to_y - 3, 'end' if to_right else 'start'))


def levels(graph):
    """The row of each job: below all that come before it; what a ring of waits holds back stands below the rest."""
    level, before = {}, {}
    for edge in graph.edges:
        if not edge.is_fault:
            before.setdefault(edge.end, []).append(edge.start)
    for j in [*graph.order.slow, *graph.order.stuck]:
        level[j] = 1 + max([0] + [level[i] for i in before.get(j, []) if i in level])
    # In a lane each row has one job.
    for lane in graph.lanes:
        last = 0
        for j, node in enumerate(graph.nodes):
            if node.lane == lane:
                level[j] = last = max(level[j], last + 1)
    return level
