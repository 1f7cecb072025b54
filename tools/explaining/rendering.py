"""A page as text, as lines that editors read, and as JSON."""
import json
import textwrap

from page import WIDE
from rules import rule_ids

FORMATS = ('text', 'gcc', 'json')
EDITS = {'insert': 'put in before this line', 'replace': 'write instead', 'delete': 'leave this line out'}


# As text.

def as_text(page):
    """The verdict, the marked lines, the remarks, and the mend as lines that come and go."""
    numbers = [page.draft.origin(line) for line in page.shown]
    margin = ' ' * len(str(max([number for number in numbers if number], default=1)))
    rows = [said(page), f'{margin}--> {page.path}', f'{margin} |']
    before = None
    for line in sorted(page.shown):
        if before is not None and line > before + 1:
            rows.append(f'{margin} :')
        before = line
        rows += marked_rows(page, line, margin)
    rows.append(f'{margin} |')
    for kind, text in remarks(page):
        rows += textwrap.wrap(text, 100, initial_indent=f'{margin} = {kind}: ', break_on_hyphens=False,
                              subsequent_indent=' ' * (len(margin) + 5 + len(kind)))
    if page.mend:
        rows += mend_rows(page, margin)
    return '\n'.join(rows) + '\n'


def said(page):
    """The verdict, with the numbers that lines had at first."""
    kind, lines = page.verdict.kind, [page.at(line) for line in page.verdict.lines]
    where = f': line{"s" * (len(lines) - 1)} {" and ".join(lines)}' if lines else ''
    return f'{kind}{where}' if kind == 'broken' else f'error: {kind}{where}'


def remarks(page):
    ids = rule_ids(page)
    return [(kind, f'{text} ({", ".join(ids)})' if kind == 'rule' and ids else text) for kind, text in page.remarks]


def marked_rows(page, line, margin):
    content = page.lines[line - 1] if line <= len(page.lines) else '(the end of the text)'
    number = page.draft.origin(line)
    rows = [f'{number if number is not None else "+":>{len(margin)}} | {cut(content)}']
    for mark in page.marks.get(line, []):
        start, end = (len(content[:at].expandtabs()) for at in (mark.start, mark.end))
        end = min(end, WIDE) if start < WIDE else start + 1
        rows.append(f'{margin} | {" " * min(start, WIDE)}{"^" * max(1, end - start)} {mark.text}')
    return rows


def cut(content):
    content = ''.join(letter if letter.isprintable() else '?' for letter in content.expandtabs())
    return content if len(content) <= WIDE else content[:WIDE] + ' ..'


def mend_rows(page, margin):
    """The lines of a mend: those that go with `-`, those that come with `+`, each beside the line where it does so."""
    wide = len(margin)
    rows = [f'{margin} |']
    for edit in page.edits:
        if edit.what != 'insert':
            rows.append(f'{edit.line:>{wide}} - {cut(edit.old)}')
        if edit.what != 'delete':
            place = f'    (before line {edit.line})' if edit.line != page.draft.keys[-1] else '    (at the end)'
            place = '' if edit.what == 'replace' else place
            rows.append(f'{edit.line if edit.what == "replace" else "":>{wide}} + {cut(edit.text)}{place}')
    return rows


# For editors.

def as_gcc(page):
    """A line for the fault, and one for each further marked line and each remark."""
    line, column = page.primary()
    ids = rule_ids(page)
    verdict = said(page).removeprefix('error: ')
    rows = [f'{page.path}:{line}:{column}: error: {verdict}' + (f' [{", ".join(ids)}]' if ids else '')]
    for at in sorted(page.marks):
        rows += [f'{page.path}:{page.draft.near(at)}:{mark.start + 1}: note: {mark.text}' for mark in page.marks[at]]
    rows += [f'{page.path}:{line}:{column}: note: {text}' for kind, text in page.remarks if kind == 'help']
    for edit in page.edits:
        text = EDITS[edit.what]
        rows.append(f'{page.path}:{edit.line}:1: note: {text}' + ('' if edit.text is None else f': {cut(edit.text)}'))
    return '\n'.join(rows) + '\n'


# As data.

def fault_data(page):
    line, column = page.primary()
    marks = [{'line': page.draft.near(at), 'column': mark.start + 1, 'text': mark.text}
             for at in sorted(page.marks) for mark in page.marks[at]]
    return {
        'kind': page.verdict.kind, 'lines': [page.draft.near(at) for at in page.verdict.lines], 'line': line,
        'column': column, 'rules': rule_ids(page), 'marks': marks,
        'remarks': [{'kind': kind, 'text': text} for kind, text in page.remarks],
        'edits': [{'what': edit.what, 'line': edit.line} | ({} if edit.text is None else {'text': edit.text})
                  for edit in page.edits],
    }


def warning_data(warning):
    return {'line': warning.line, 'column': warning.column, 'text': warning.text}


def as_json(path, verdict, faults, warnings, turns):
    data = {'file': path, 'status': verdict.outcome, 'answer': verdict.text.split('\n')[0],
            'faults': [fault_data(page) for page in faults],
            'warnings': [warning_data(warning) for warning in warnings],
            'turns': [{'line': line, 'text': text} for line, text in turns]}
    return json.dumps(data) + '\n'
