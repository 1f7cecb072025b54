"""What is said of one fault: the verdict, marks below lines of the script, remarks, and a mend."""

import re

# A line is shown up to this many columns, and a word of what is said up to so many letters.
WIDE, WORD = 120, 60


class Mark:
    """What is said of a line: of the columns from `start` up to `end`, counted from 0 in the line as it stands."""

    def __init__(self, text, start, end):
        self.text, self.start, self.end = text, start, end


class Page:
    """All lines are named by their numbers in a draft; what is said names them as they were at first."""

    def __init__(self, verdict, path, draft):
        self.verdict, self.path, self.draft = verdict, path, draft
        self.lines = [(line[:-1] if line.endswith(b'\r') else line).decode('latin-1') for line in draft.lines]
        self.marks, self.shown, self.remarks, self.mend = {}, set(), [], None
        # What is said of lines that the mend changes, and the edits of the mend.
        self.suspects, self.edits = [], []

    def at(self, line):
        """How a line is called."""
        number = self.draft.origin(line)
        return f'{number}' if number is not None else f'{self.draft.near(line)} (put in before it)'

    def show(self, *lines):
        """Shows these lines without a mark."""
        self.shown |= {line for line in lines if line <= len(self.lines)}

    def mark(self, line, text, word=None):
        """Says something of a line, or of one of its words, counted from 0."""
        self.shown.add(line)
        start, end = self.columns(line, word)
        self.marks.setdefault(line, []).append(Mark(brief(text), start, end))

    def suspect(self, line, text):
        """Says something of a line where the mend that is offered changes it, and nothing else."""
        self.suspects.append((line, text))

    def columns(self, line, word):
        if line > len(self.lines):
            return 0, 1
        spans = word_spans(self.lines[line - 1])
        if not spans:
            return 0, 1
        return spans[word] if word is not None and word < len(spans) else (spans[0][0], spans[-1][1])

    def note(self, text):
        self.remarks.append(('note', brief(text)))

    def rule(self, text):
        self.remarks.append(('rule', text))

    def help(self, text):
        """A general help, for where no mend is offered."""
        self.remarks.append(('help', brief(text)))

    def offer(self, mend):
        """A mend that was tried: it takes the place of the general help."""
        self.remarks = [remark for remark in self.remarks if remark[0] != 'help'] + [('help', brief(mend.text()))]
        self.mend, self.edits = mend, self.draft.edits_to(mend.draft)
        changed = {edit.line for edit in self.edits if edit.what == 'replace'}
        for line, text in self.suspects:
            if self.draft.near(line) in changed:
                self.mark(line, text)

    def primary(self):
        """The line and the column, both counted from 1, at which an editor shows the fault."""
        line = self.verdict.lines[-1] if self.verdict.lines else 1
        marks = self.marks.get(line, [])
        return self.draft.near(line), (marks[0].start if marks else 0) + 1


def brief(text):
    """A text without the ends of very long words of the script."""
    return re.sub(rf'\S{{{WORD + 2},}}', lambda word: word[0][:WORD] + '..', text)


def word_spans(line):
    """Where the words of a line stand that are no comment."""
    spans, start = [], None
    for place, letter in enumerate(line.split('#')[0] + ' '):
        if letter in ' \t':
            if start is not None:
                spans.append((start, place))
            start = None
        elif start is None:
            start = place
    return spans
