"""What happens before what in a script, as a graph: its jobs, the links between them with their reasons, its faults."""

MOST_LINES = 5
# How links are drawn by Graphviz that a fault is about.
FAULT = 'color="#a50f15", style=dashed'


class Node:
    """A batch or a line of the host: its lane, its lines, and whether a fault names it."""

    def __init__(self, lane, title, lines):
        self.lane, self.title, self.lines, self.fault = lane, title, lines, None


class Edge:
    """One job comes before another: why. Of a fault: two jobs that nothing orders, or not as it should."""

    def __init__(self, start, end, why, is_fault=False, is_broken=False):
        self.start, self.end, self.why, self.is_fault, self.is_broken = start, end, why, is_fault, is_broken


class Graph:
    """The graph of a script whose plan is known; `asked` knows its order, and `pages` its faults."""

    def __init__(self, asked, pages):
        self.asked, self.plan, self.order = asked, asked.plan, asked.order
        self.lanes = ['host'] + [asked.queues[queue] for queue in range(len(self.plan.modes))]
        self.nodes = [self.node(j) for j in range(len(self.plan.jobs))]
        self.edges = [edge for j in range(len(self.nodes)) for edge in self.edges_to(j)]
        self.faults = []
        for page in pages:
            self.add_fault(page)
        used = {node.lane for node in self.nodes}
        self.lanes = [lane for lane in self.lanes if lane in used]

    def node(self, j):
        asked, job = self.asked, self.plan.jobs[j]
        lane = 'host' if job.queue is None else asked.queues[job.queue]
        title = f'{asked.at(job.line)}: {" ".join(asked.words(job.line))}'
        body = [] if job.queue is None else range(job.line + 1, asked.last[j])
        lines = [' '.join(asked.words(line)) for line in body if asked.words(line)]
        if len(lines) > MOST_LINES:
            lines[MOST_LINES - 1:] = [f'and {len(lines) - MOST_LINES + 1} lines more']
        return Node(lane, title, lines)

    def edges_to(self, j):
        """The links to a job that no other link to it implies; those that its waits make are all there."""
        plan, job, found = self.plan, self.plan.jobs[j], []
        if job.previous is not None:
            found.append((job.previous, 'host' if job.queue is None else f'queue {self.nodes[j].lane}'))
        waits = [(e, line) for line, t, value in ([] if job.any else job.needs)
                 for e in [plan.awaited_signal(t, value)] if e is not None]
        others = [(i, 'idle') for i in job.idle_after]
        if job.host_before is not None:
            others.append((job.host_before, 'submitted behind it'))
        found += [(plan.ops[e].job, f'{self.signal(e)}, line {self.asked.at(line)}{self.held_back(j, line)}')
                  for e, line in waits]
        links = found + others
        found += [(i, why) for i, why in others if i not in [k for k, _ in found]
                  and not any(self.asked.is_before(i, k) for k, _ in links)]
        stuck = set(self.order.stuck)
        return [Edge(i, j, why, is_broken=j in stuck and i in stuck) for i, why in found]

    def held_back(self, j, line):
        """Which commands of a batch a wait holds back, where it isn't all of them."""
        place = next((place for at, _, place in self.asked.held_waits(j) if at == line), 1)
        return '' if place == 1 else f', from command {place} on'

    def signal(self, e):
        op = self.plan.ops[e]
        name = self.plan.names[op.chain]
        return f'{name} {op.value}' if self.plan.kinds[op.chain] == 'timeline' else name

    def add_fault(self, page):
        """Marks the jobs of a fault of this script; of another one, which was mended, says it in the list alone."""
        lines = [page.at(line) for line in page.verdict.lines]
        kind = page.verdict.kind
        said = f'{kind}: line{"s" * (len(lines) > 1)} {" and ".join(lines)}'
        self.faults.append(said)
        if page.draft is not self.asked.page.draft or not page.verdict.lines:
            return
        jobs = [self.asked.job_at(line) for line in page.verdict.lines]
        for j in jobs:
            self.nodes[j].fault = said
        if len(jobs) == 2 and jobs[0] != jobs[1]:
            self.edges.append(Edge(jobs[0], jobs[1], said, is_fault=True))


def as_dot(graph):
    """The graph in the language of Graphviz."""
    rows = ['digraph order {', '  rankdir=TB;', '  node [shape=box, style="rounded,filled", fillcolor="#f7fbff", '
            'fontname="DejaVu Sans", fontsize=10];', '  edge [fontname="DejaVu Sans", fontsize=9];']
    for place, lane in enumerate(graph.lanes):
        rows.append(f'  subgraph cluster_{place} {{ label={quoted(lane)}; color="#dddddd";')
        for j, node in enumerate(graph.nodes):
            if node.lane == lane:
                ink = ', color="#a50f15", fontcolor="#a50f15"' if node.fault else ''
                text = [node.title, *node.lines] + ([node.fault] if node.fault else [])
                rows.append(f'    j{j} [label={quoted(text)}{ink}];')
        rows.append('  }')
    for edge in graph.edges:
        style = (f', {FAULT}, fontcolor="#a50f15", dir=none, constraint=false' if edge.is_fault else
                 f', {FAULT}' if edge.is_broken else '')
        rows.append(f'  j{edge.start} -> j{edge.end} [label={quoted(edge.why)}{style}];')
    if graph.faults:
        rows.append(f'  label={quoted(graph.faults)};')
    return '\n'.join([*rows, '}', ''])


def quoted(texts):
    texts = [texts] if isinstance(texts, str) else texts
    end = '\\l' if len(texts) > 1 else ''
    return '"' + ''.join(text.replace('\\', '\\\\').replace('"', '\\"') + end for text in texts) + '"'
