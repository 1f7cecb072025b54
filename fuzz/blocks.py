"""A second reading of docs/LANGUAGE.md, "Thread blocks": what vq writes for an input with `--hosts`.

The lines of threads are read here, over the reader of scripts. With their lines emptied the text is a script as ever;
what is judged is the compiled script, in which each thread is a queue. `Hosts(data)` is a lawful text, `hosts(data)`
gives (status, text), the text being that of the compiled script's slow run, and `is_hosts_output(data, text)` says of
any text whether the script may give it. All three speak of the lines of the input.
"""
import re

from canonical import numbered
from lowering import Refusal
from outputs import Outputs
from reference import DECLARATIONS, LIMIT, Batch, Fault, Reader, Script, lines_of, numeral, refused

OUTSIDE = [('thread', [b'thread', 'new'])]
IN_THREAD = [
    ('thread_wait', [b'wait', 'pairs']),
    ('thread_signal', [b'signal', 'timeline name', 'numeral']),
    ('thread_end', [b'end']),
]
# Queues and threads together, the pairs of a line, the steps of all threads, and the jobs beside them.
MOST_LANES, MOST_PAIRS, MOST_STEPS, MOST_OTHER_JOBS = 16, 16, 1024, 7168


class Thread:
    def __init__(self, line, name):
        self.line, self.name, self.steps = line, name, []


class ThreadStep:
    """A line of a thread: a wait for all of its pairs, or a signal with its one pair; each a name and a value."""

    def __init__(self, line, kind, pairs):
        self.line, self.kind, self.pairs = line, kind, pairs


class BlockReader(Reader):
    """Reads a script that may have thread blocks before its first job."""

    def __init__(self):
        super().__init__()
        self.threads = []
        # The thread whose block is open.
        self.thread_open = None
        # The line that says the version, 0 where none does, and the lines of blocks.
        self.version_line, self.block_lines = 0, set()

    def read(self, line, number):
        has_begun, is_inside = self.has_begun, self.thread_open is not None
        super().read(line, number)
        if is_inside or self.thread_open is not None:
            # The version may still be said, as if the lines of blocks were empty.
            self.has_begun = has_begun
            self.block_lines.add(number)

    def forms(self):
        if self.thread_open is not None:
            return IN_THREAD
        return super().forms() + ([] if self.batch else OUTSIDE)

    def is_late(self, form):
        if form == 'thread':
            return bool(self.jobs)
        return super().is_late(form) or form in DECLARATIONS and bool(self.threads)

    def is_open(self):
        return super().is_open() or self.thread_open is not None

    def version(self, words):
        super().version(words)
        self.version_line = self.number

    def thread(self, words):
        if len(self.queues) + len(self.threads) == MOST_LANES:
            raise Fault('limit')
        self.thread_open = Thread(self.number, words[1])
        self.names[words[1]] = ('thread', len(self.threads))
        self.threads.append(self.thread_open)

    def thread_step(self, kind, words):
        pairs = [(name, numeral(value)) for name, value in zip(words[1::2], words[2::2])]
        if len(pairs) > MOST_PAIRS or sum(len(thread.steps) for thread in self.threads) == MOST_STEPS:
            raise Fault('limit')
        self.thread_open.steps.append(ThreadStep(self.number, kind, pairs))

    def thread_wait(self, words):
        self.thread_step('wait', words)

    def thread_signal(self, words):
        self.thread_step('signal', words)

    def thread_end(self, _):
        self.thread_open = None

    def submit(self, words):
        self.another_job()
        super().submit(words)

    def step(self, kind, words):
        self.another_job()
        super().step(kind, words)

    def lower_threads(self):
        """Makes each thread a queue and each of its lines a batch, all with the lines of the text; once it is read."""
        batches = []
        for thread in self.threads:
            self.names[thread.name] = ('queue', len(self.queues))
            for step in thread.steps:
                batch = Batch(step.line, len(self.queues))
                marks = [(step.line, self.names[name][1], value) for name, value in step.pairs]
                if step.kind == 'wait':
                    batch.waits, batch.held_from = marks, [1] * len(marks)
                else:
                    batch.signals = marks
                batches.append(batch)
            self.queues.append(b'threaded')
        self.jobs = batches + self.jobs

    def another_job(self):
        if len(self.jobs) == MOST_OTHER_JOBS:
            raise Fault('limit')


def rest_of(data, blocks):
    """The text with the lines of blocks emptied."""
    return b'\n'.join(b'' if number in blocks.block_lines else line for number, line in enumerate(data.split(b'\n'), 1))


def compiled(data, blocks):
    """The text of the compiled script, and for each of its lines the line of the input from which it comes."""
    declared, jobs = numbered(rest_of(data, blocks))
    queues = [(thread.line, [b'queue', thread.name, b'threaded']) for thread in blocks.threads]
    batches = [line for thread in blocks.threads for step in thread.steps for line in batch_of(thread, step)]
    lines = [(blocks.version_line, [b'version', b'2']), *declared, *queues, *batches, *jobs]
    return b''.join(b' '.join(words) + b'\n' for _, words in lines), [number for number, _ in lines]


def batch_of(thread, step):
    """The batch that stands for a step: it has no commands."""
    yield step.line, [b'submit', thread.name]
    for name, value in step.pairs:
        yield step.line, [step.kind.encode(), name, b'%d' % value]
    yield step.line, [b'end']


class Hosts(Script):
    """A lawful script with thread blocks: the plan and the order of the compiled one, with the lines of the input."""

    def __init__(self, data):
        """Raises the Refusal of one that isn't lawful."""
        if len(data) > LIMIT:
            raise Refusal('too long')
        self.blocks = BlockReader()
        self.blocks.read_all(data)
        text, self.lines = compiled(data, self.blocks)
        self.reader = Reader()
        try:
            self.reader.read_all(text)
        except Refusal as refusal:
            raise AssertionError(f'the compiled script has a faulty line: {refusal}') from refusal
        try:
            self.judge()
        except Refusal as refusal:
            raise Refusal(re.sub(r'\d+', lambda line: str(self.lines[int(line[0]) - 1]), str(refusal))) from None
        for job in self.plan.jobs:
            job.line = self.lines[job.line - 1]


def hosts(data):
    """The status and the text of the slow run: the only text where nobody looks at what goes on."""
    try:
        script = Hosts(data)
    except Refusal as refusal:
        return refused(refusal)
    return 0, script.text(script.windows.slow_answers())


def is_hosts_output(data, text):
    """None where the script may give this text, or why not."""
    try:
        script = Hosts(data)
    except Refusal as refusal:
        return None if text == refused(refusal)[1] else f'the script is refused: {refusal}'
    misfit = Outputs(script).misfit(text)
    return None if misfit is None else misfit.text()


def has_blocks(data):
    """Whether a text has a line that would begin a block."""
    return any(re.match(rb'[ \t]*thread(?![^ \t#])', line) for line in lines_of(data))
