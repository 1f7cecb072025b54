"""The pages of a script: its first fault, and those that show when the earlier ones are mended."""
from asked import Asked
from draft import Draft
from line_faults import Line, explain_line
from line_mends import line_mends
from order_faults import explain_order
from order_mends import order_mends
from page import Page
from trace_faults import Traced, explain_trace
from trying import LINE_FAULTS, RANKS, TRACE_FAULTS, USE_FAULTS, choose, is_later
from use_faults import Uses, explain_use, use_mends


def page_of(trial, verdict, path, draft):
    """The page that explains a refusal."""
    page = Page(verdict, path, draft)
    if verdict.kind == 'too long':
        page.rule(f'an input has at most 4,194,304 bytes; this one has {trial.size:,}')
        page.help('shorten comments and blanks, or cut the script in two')
        return page
    if verdict.kind not in RANKS:
        return page
    if verdict.kind in TRACE_FAULTS:
        explain_trace(page, Traced(page, trial.word))
        return page
    looked_at = look(trial, page)
    if verdict.kind in LINE_FAULTS:
        explain_line(page, looked_at)
    elif verdict.kind in USE_FAULTS:
        explain_use(page, looked_at)
    else:
        explain_order(page, looked_at)
    trial.tries = 0
    mend = choose(trial, draft, verdict, lambda later, found: groups_of(trial, path, page, looked_at, later, found))
    if mend:
        page.offer(mend)
    return page


def look(trial, page):
    """What is known of a refused script, by the kind of its fault."""
    reading = (Line if page.verdict.kind in LINE_FAULTS else Uses if page.verdict.kind in USE_FAULTS else Asked)
    return reading(page, trial.word)


def groups_of(trial, path, page, looked_at, draft, verdict):
    """The groups of mends for a fault: that of the page, or one behind it."""
    if draft is not page.draft:
        page = Page(verdict, path, draft)
        looked_at = look(trial, page)
    return (line_mends if verdict.kind in LINE_FAULTS else use_mends if verdict.kind in USE_FAULTS else order_mends)(
        verdict, looked_at)


def pages(trial, path, data, most):
    """The verdict of a script, and the pages of up to `most` of its faults.

    After each fault the script is taken on as its mend has it. Where there is none, the faulty line is left out, or the
    last of the two, as long as what is refused then comes later.
    """
    draft = Draft.of(data)
    first = verdict = trial.ask(data)
    found = []
    while verdict.kind and len(found) < most:
        page = page_of(trial, verdict, path, draft)
        found.append(page)
        if len(found) == most:
            break
        draft, verdict = gone_on(trial, page, verdict, draft)
    return first, found


def gone_on(trial, page, verdict, draft):
    """The script without its first fault, and what it is answered with then: no verdict of a kind at the end."""
    if page.mend:
        return page.mend.draft, page.mend.verdict
    place = verdict.place(draft)
    for line in reversed(verdict.lines):
        if line > len(draft.lines) or place is None:
            break
        without = draft.without(line)
        found = trial.ask(without.data())
        if found.status == 0 or is_later(found.place(without), place):
            return without, found
    return draft, type(verdict)(0, '')
