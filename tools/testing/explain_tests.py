"""Tests of explain: its words, its formats, what it marks, what it warns of, and how long it takes."""
import json
import os
import re
import time

from running import TOP
from timing import most_memory

# A script, the line that is to be marked with these words, and a line of the mend.
CAUSES = [
    ('a value too low', 'buffer X 4|timeline T 0|queue P threaded|queue Q threaded|submit P|signal T 1|end|submit P|'
     'fill X 0 4 1|signal T 2|end|submit Q|wait T 1|fill X 0 4 2|end', 13, 'a value too low', '13 + wait T 2'),
    ('an initial value', 'buffer X 4|timeline T 1|queue P threaded|queue Q threaded|submit P|fill X 0 4 1|signal T 2|'
     'end|submit Q|wait T 1|fill X 0 4 2|end', 10, 'orders nothing: T begins with 1', '10 + wait T 2'),
    ('a poll', 'buffer X 4|timeline T 0|queue P threaded|queue Q threaded|submit P|fill X 0 4 1|signal T 2|end|'
     'host poll all T 2|submit Q|fill X 0 4 2|end', 9, 'orders nothing, whatever it answers', '+ wait T 2'),
    ('a wait for any', 'buffer X 4|timeline T 0|timeline U 0|queue P threaded|queue Q threaded|submit P|fill X 0 4 1|'
     'signal T 2|end|host wait any T 2 U 0|submit Q|fill X 0 4 2|end', 10, 'orders nothing: any of its', '+ wait T 2'),
    ('a signal that goes back', 'timeline T 0|queue P threaded|submit P|signal T 5|end|submit P|signal T 3|end', 7,
     'sets T back to 3', '7 + signal T 6'),
    ('the host goes back', 'timeline T 0|queue P threaded|submit P|signal T 5|end|host wait all T 5|host signal T 4', 7,
     'sets T back to 4', '7 + host signal T 6'),
    ('one value twice', 'timeline T 0|queue P threaded|submit P|signal T 5|end|submit P|signal T 5|end', 7,
     'sets T to 5 too', '7 + signal T 6'),
    ('two signals of one batch', 'timeline T 0|queue P threaded|submit P|signal T 1|signal T 2|end', 5,
     'in the same batch', '4 - signal T 1'),
    ('a timeline without its value', 'timeline T 0|queue P threaded|submit P|signal T|end', 4, 'is a timeline',
     '4 + signal T 1'),
    ('a binary semaphore with a value', 'binary S|queue P threaded|submit P|signal S 1|end', 4, 'is a binary',
     '4 + signal S'),
    ('a fence after its reset', 'fence F|queue P threaded|submit P|fence F|end|host fence wait F|host fence reset F|'
     'host fence wait F', 8, 'since its last reset', '8 - host fence wait F'),
    ('an update with 0x', 'buffer X 4|queue Q immediate|submit Q|update X 0 0x01020304|end', 4, 'digits in pairs',
     '4 + update X 0 01020304'),
    ('a queue for an actor', 'queue Q immediate|submit Q|end|schedule|Q 3', 5, 'not the form', '5 + R:Q 3'),
    ('a queue that the host serves', 'queue Q immediate|submit Q|end|schedule|S:Q 3', 5, 'not threaded', '5 + host 3'),
    ('no turns', 'queue Q immediate|submit Q|end|schedule|host 0', 5, 'a count of turns', '5 - host 0'),
    ('two waits of one signal', 'binary S|queue P threaded|queue Q threaded|submit P|signal S|end|submit Q|wait S|end|'
     'submit Q|wait S|end', 11, 'no signal is left', '1 + timeline S 0'),
    ('a wait that holds back too little', 'version 2|buffer X 4|timeline T 0|queue P threaded|queue Q threaded|submit P|'
     'fill X 0 4 1|signal T 1|end|submit Q|wait T 1 from 2|fill X 0 4 2|end', 11, 'holds back what stands behind line 12',
     '11 + wait T 1'),
    ('a wait that holds back nothing', 'version 2|timeline T 0|queue Q threaded|submit Q|wait T 0 from 2|end', 5,
     'not even its signals', '5 + wait T 0 from 1'),
    ('a wait of version 2', 'timeline T 0|queue Q threaded|submit Q|wait T 0 from 1|end', 4, 'no line that stands inside',
     '+ version 2'),
    ('a late version', 'timeline T 0|version 2', 2, 'no line that stands outside', '2 - version 2'),
    ('a ninth queue', '|'.join(f'queue Q{n} threaded' for n in range(9)), 9, 'one too many', '+ version 2'),
    ('a thread without a wait', 'buffer X 4|timeline A 0|queue P threaded|queue Q threaded|thread T|signal A 1|end|'
     'submit P|fill X 0 4 1|end|submit Q|wait A 1|fill X 0 4 2|end', 13, 'writes bytes 0 to 3', '+ timeline order 0'),
    ('a declaration behind a thread', 'thread T|end|timeline A 0', 3, 'behind the first thread', '+ timeline A 0'),
    ('an open block', 'timeline A 0|thread T|wait A 0', 4, 'the text ends here', '+ end'),
    ('a wait of the host that is too low', 'buffer X 4|buffer Y 4|timeline T 0|queue cpu immediate|queue Q threaded|'
     'submit Q|copy X 0 Y 0 4|signal T 1|end|submit Q|copy X 0 Y 0 4|signal T 2|end|host wait all T 1|submit cpu|'
     'fill X 0 4 1|end', 14, 'a value too low', '14 + host wait all T 2'),
    ('a fence that the host has waited for', 'fence F|queue P threaded|submit P|fence F|end|host fence wait F|submit P|'
     'fence F|end', 8, 'names it again', '  + host fence reset F    (before line 7)'),
    ('an acquire that is signaled twice', 'binary acq|queue A threaded|queue G threaded|submit A|signal acq|end|submit A|'
     'signal acq|end|submit G|wait acq|end', 8, 'signals again', '8 + signal acq_2'),
    ('the other batch first', 'buffer a 4|buffer b 4|timeline t 0|queue gfx threaded|submit gfx|wait t 1|copy a 0 b 0 4|'
     'end|submit gfx|fill a 0 4 7|signal t 1|end', 6, 'waits for the signal of t 1', ' 9 - submit gfx'),
    ('another queue', 'buffer a 4|timeline t 0|timeline u 0|queue gfx threaded|submit gfx|wait t 1|signal u 1|end|'
     'submit gfx|signal t 1|end|submit gfx|wait u 1|end', 6, 'waits for the signal of t 1', ' 9 - submit gfx'),
    ('a ring of two queues', 'buffer a 4|buffer b 4|timeline t 0|timeline u 0|queue P threaded|queue Q threaded|submit P|'
     'wait u 1|fill a 0 4 1|signal t 1|end|submit Q|wait t 1|copy a 0 b 0 4|signal u 1|end', 8, 'waits for the signal',
     'the fill of line 9 then comes before the copy of line 14'),
    ('carriage returns alone', 'buffer X 4\rqueue Q immediate\rsubmit Q\rend', 1, 'a carriage return that no line feed',
     '+ queue Q immediate'),
    ('a byte order mark', '\ufeffbuffer X 4', 1, 'byte order mark', '1 + buffer X 4'),
]
# A race, and the lines of waits that the mend doesn't raise: nothing is said of them.
INNOCENT = [
    # async compute without its back edge: the wait of c 1 is right, and comp's second batch lacks one
    ('buffer data 4|buffer image 4|timeline c 0|timeline g 0|queue comp threaded|queue gfx threaded|submit comp|'
     'fill data 0 4 1|signal c 1|end|submit gfx|wait c 1|copy data 0 image 0 4|signal g 1|end|submit comp|'
     'fill data 0 4 2|signal c 2|end', [12], '+ wait g 1'),
    # a ring of three frames of which the last host wait is one too low, and the one before it is right
    ('buffer X 4|buffer Y 4|buffer I 4|timeline frame 0|timeline w 0|queue cpu immediate|queue gfx threaded|'
     'submit cpu|fill X 0 4 1|signal w 1|end|submit gfx|wait w 1|copy X 0 I 0 4|signal frame 1|end|'
     'submit cpu|fill Y 0 4 2|signal w 2|end|submit gfx|wait w 2|copy Y 0 I 0 4|signal frame 2|end|'
     'host wait all frame 1|submit cpu|fill X 0 4 3|signal w 3|end|submit gfx|wait w 3|copy X 0 I 0 4|signal frame 3|end|'
     'host wait all frame 1|submit cpu|fill Y 0 4 4|signal w 4|end', [26], '36 + host wait all frame 2'),
]
# The line of a trace behind a script, put in after the first lines of a lawful trace, what is marked, and what is said.
TRACED = ('buffer X 4|timeline A 0|queue P threaded|queue Q threaded|submit P|fill X 0 4 1|signal A 1|end|submit Q|'
          'wait A 1|end|trace|1 host submit 5|2 S:P take A 1 fresh 0|3 S:P release 5|')
TRACES = [
    ('4 S:Q release 9', 'isn\'t submitted yet', 'S:Q can do nothing here but wait'),
    ('4 host submit 9|5 S:Q release 9', 'its wait at line 10 is for A 1, which isn\'t pending', 'docs/TURNS.md'),
    ('4 S:P bind A 1 1', 'point 1 carries nothing', 'S:P may go on with `bind A 1 0`'),
    ('4 R:P start 5|5 R:P signal A 1', 'the command of line 6 isn\'t done', 'R:P may go on with `apply 6`'),
    ('4 S:P free 0', 'its signal A 1 isn\'t completed', '`bind A 1 0`'),
    ('4 S:P take A 1 fresh 1', 'has point 0 already, at line 14', '`bind A 1 0`'),
    ('unfinished 1', '2 are left without a `finish`: lines 5, 9', 'write `unfinished 2`'),
    ('4 H submit 9', 'no actor', '`S:QUEUE`'),
    ('3 host submit 9', 'not above 3', 'count up'),
    ('4 host submit 6', 'no batch and no host line stands at line 6', 'submit L'),
    ('4 S:P bind A 2 0', 'A is signaled with 1', 'bind T V P'),
    ('4 R:P release 5', 'R:P can\'t do that: it is of S:P', 'write it of who does it'),
    ('4 S:P binds A 1 0', 'no event has this name', 'bind'),
    ('4 S:P bind A 1 0', 'the trace ends here', 'unfinished N'),
]
# A schedule behind the same script, and what is said of its turns.
TURNS = [
    ('R:P|host', 'turn 1 of R:P: `-`: the batch of P at line 5 isn\'t handed on yet', 'unfinished 2'),
    ('host 2|S:Q 3', 'turns 3, 4, 5 of S:Q: `-`: the batch of Q at line 9 waits at line 10 for A 1, which isn\'t pending',
     'S:Q is stuck: the batch of Q at line 9 waits at line 10 for A 1'),
    ('host 2', 'S:P would go on with `take A 1 fresh 0`', 'R:P is stuck'),
]
# A lawful script, and what is warned of at which line.
DOUBTS = [
    ('timeline T 1|queue Q threaded|submit Q|wait T 1|end', 4, 'orders nothing: T begins with 1'),
    ('fence F|queue Q threaded|submit Q|fence F|end', 4, 'never waits for the fence F'),
    ('timeline T 0|queue Q threaded|submit Q|signal T 1|end', 4, 'nothing waits for T'),
    ('timeline T 0', 1, 'never used'),
    ('# one\rbuffer X 4', 1, 'carriage return'),
]
LARGE = 4095


def lines(text):
    return text.replace('|', '\n') + '\n'


def test_explain(tests):
    tests.helps('explain')
    tests.keeps_its_temper('explain', '--vq', tests.program)
    misuses(tests)
    other_programs(tests)
    causes(tests)
    innocent(tests)
    traces(tests)
    doubts(tests)
    formats(tests)
    several(tests)
    is_quick(tests)
    is_quick_on_the_largest(tests)


def misuses(tests):
    for words in (['--format', 'xml'], ['--format'], ['--faults', '0'], ['--faults', 'all'], ['--vq'], ['--frmt=gcc'],
                  ['--vq', '/nowhere/vq', os.path.join(TOP, 'examples', 'race.vq')], ['--vq', '/', '-']):
        tests.misused('explain', *words)
    for path in ('/nowhere/script', '/'):
        tests.misused('explain', path, status=3, program=True)
    path = tests.write('alone.vq', 'buffer X 4\n')
    moved = tests.tool('explain', path, program=False, env={'PATH': '/usr/bin:/bin', 'HOME': '/'})
    tests.check('explain without vq on the PATH', moved.returncode in (0, 1) and b'Traceback' not in moved.stderr)
    with open('/dev/full', 'wb') as full:
        done = tests.tool_to(full, 'explain', path)
    tests.check('explain on a full disk', done == 4, done)


def other_programs(tests):
    """A program that isn't vq, or that ends by a signal, is told of by its status."""
    killed = tests.write('killed', '#!/bin/sh\nkill -KILL $$\n')
    os.chmod(killed, 0o755)
    race = os.path.join(TOP, 'examples', 'race.vq')
    for program, status in (('/bin/false', 1), (killed, 137)):
        for form in ('text', 'gcc', 'json'):
            done = tests.tool('explain', '--vq', program, '--format', form, race, program=False)
            tests.check(f'{program} for vq', done.returncode == status and not done.stderr, done)


def causes(tests):
    for what, script, line, mark, mend in CAUSES:
        page = tests.tool('explain', data=lines(script).encode()).stdout.decode()
        rows = page.split('\n')
        at = next((place for place, row in enumerate(rows) if row.strip().startswith(f'{line} | ')), len(rows))
        marks = []
        for row in rows[at + 1:]:
            if not re.match(r' +\| +\^|  +\| \^', row):
                break
            marks.append(row)
        tests.check(what, any(mark in row for row in marks) and mend in page, page)


def innocent(tests):
    for script, waits, mend in INNOCENT:
        page = tests.tool('explain', data=lines(script).encode()).stdout.decode()
        marked = [line for line in waits if re.search(rf'^ *{line} \|.*\n *\| *\^', page, re.MULTILINE)]
        tests.check('a wait that is right', not marked and mend in page, page)


def traces(tests):
    """Lines of traces by their causes, in all formats, and turns of schedules."""
    for trace, mark, said in TRACES:
        has_end = said == 'unfinished N' or 'unfinished' in trace
        data = lines(TRACED + trace + ('' if has_end else '|unfinished 2')).encode()
        done = tests.tool('explain', data=data)
        page = ' '.join(done.stdout.decode().split())
        first = tests.vq(data, '--audit').decode().strip()
        tests.check(f'the trace {trace}', done.returncode == 2 and page.startswith(first + ' -->') and mark in page
                    and said in page and not done.stderr, (first, done.stdout.decode()))
        gcc = tests.tool('explain', '--format', 'gcc', data=data).stdout.decode()
        tests.check(f'gcc of the trace {trace}', f': error: {first.removeprefix("error: ")}' in gcc, gcc)
        data = json.loads(tests.tool('explain', '--format', 'json', data=data).stdout)
        tests.check(f'json of the trace {trace}', (data['status'], data['answer']) == (2, first), data)
    script = TRACED.split('trace|', maxsplit=1)[0]
    for schedule, *said in TURNS:
        page = tests.tool('explain', data=lines(f'{script}schedule|{schedule}').encode()).stdout.decode()
        tests.check(f'the turns {schedule}', page.startswith('lawful\n') and all(text in page for text in said), page)


def doubts(tests):
    for script, line, text in DOUBTS:
        done = tests.tool('explain', data=lines(script).encode())
        wanted = any(row.startswith(f'<stdin>:{line}:') and text in row for row in done.stdout.decode().split('\n'))
        tests.check(f'a warning: {text}', done.returncode == 0 and wanted, done.stdout)
        quiet = tests.tool('explain', '--no-warnings', data=lines(script).encode())
        tests.check('no warnings', quiet.stdout == b'lawful\n', quiet.stdout)


def formats(tests):
    """Each format names the same fault; each rule's id stands in docs/VULKAN.md."""
    with open(os.path.join(TOP, 'docs', 'VULKAN.md'), encoding='utf-8') as file:
        page = file.read()
    paths = [os.path.join(TOP, 'examples', name) for name in sorted(os.listdir(os.path.join(TOP, 'examples')))
             if name.endswith('.vq')]
    refused = [path for path in paths if os.path.exists(path[:-2] + 'status')]
    found = [json.loads(row) for row in tests.tool('explain', '--format', 'json', *refused).stdout.splitlines()]
    gcc = tests.tool('explain', '--format=gcc', *refused).stdout.decode().split('\n')
    text = tests.tool('explain', *refused).stdout.decode().split('\n')
    for path, data in zip(refused, found):
        [fault] = data['faults']
        where = f'{path}:{fault["line"]}:{fault["column"]}: error: {fault["kind"]}'
        tests.check(f'gcc of {path}', any(row.startswith(where) for row in gcc), where)
        tests.check(f'text of {path}', data['answer'] in text, data['answer'])
        for name in fault['rules']:
            tests.check(name, name in page or '-' + name.rsplit('-', 1)[1] in page)
    tests.check('json', [data['file'] for data in found] == refused and all(data['status'] == 2 for data in found))


def several(tests):
    """Several faults of one script, and several scripts."""
    script = lines('buffer X 8|timeline A 0|fence F|queue P threaded|queue Q threaded|submit P|fill X 4 8 1|'
                   'signal A 1|fence F|end|submit Q|update X 0 0x01020304|signal A 2|end|host fence reset F|foo|'
                   'submit Q|wait A 9|end')
    done = tests.tool('explain', '--faults', '20', '--format', 'json', data=script.encode())
    kinds = [fault['kind'] for fault in json.loads(done.stdout)['faults']]
    wanted = ['range', 'number', 'syntax', 'unreachable', 'unordered', 'fence busy']
    tests.check('several faults', kinds == wanted, kinds)
    one, other = tests.write('one.vq', 'buffer X 4\n'), tests.write('other.vq', 'buffer X 0\n')
    done = tests.tool('explain', one, '/nowhere', other, '-', data=b'buffer\n')
    said = done.stdout.decode()
    tests.check('several scripts', done.returncode == 3 and f'{one}: lawful' in said and 'error: range: line 1' in said
                and 'error: syntax: line 1' in said and done.stderr.count(b'\n') == 1, said)


def is_quick(tests):
    """A race of the last of 4,095 jobs is explained within three seconds of one processor."""
    rows = ['buffer X 16'] + [f'timeline T{q} 0\nqueue Q{q} threaded' for q in range(4)]
    for k in range(LARGE):
        waits = [f'wait T{(k - 1) % 4} {(k - 1) // 4 + 1}'] if 0 < k < LARGE - 1 else []
        rows += [f'submit Q{k % 4}', *waits, f'fill X 0 4 {k}', f'signal T{k % 4} {k // 4 + 1}', 'end']
    start = time.monotonic(), os.times()
    done = tests.tool('explain', data='\n'.join(rows).encode() + b'\n')
    times = os.times()
    took = min(time.monotonic() - start[0], sum(times[2:4]) - sum(start[1][2:4]))
    tests.check('a large script', b'+ wait T' in done.stdout and took < 3, f'{took} s\n{done.stdout.decode()}')


def largest(tail=''):
    """Nearly 4 MB: 7,900 batches of 15 queues in a ring, each with 16 waits for the one before and 16 signals."""
    rows, values = ['version 2', 'buffer X 4'], [0] * 15
    rows += [f'timeline T{q:02d}{m:02d} 0' for q in range(15) for m in range(16)]
    rows += [f'queue Q{q:03d} threaded' for q in range(15)]
    for k in range(7900):
        queue, before = k % 15, (k - 1) % 15
        rows.append(f'submit Q{queue:03d}')
        rows += [f'wait T{before:02d}{m:02d} {values[before]}' for m in range(16) if k]
        values[queue] += 1
        rows += [f'signal T{queue:02d}{m:02d} {values[queue]}' for m in range(16)] + ['end']
    return ('\n'.join(rows) + '\n' + lines(tail).replace('\n\n', '\n').lstrip('\n')).encode()


def is_quick_on_the_largest(tests):
    """Scripts of 4 MB, lawful and faulty, take five seconds of one processor and 300 MB at most."""
    for tail, answer in (('', 'lawful'), ('submit Q000|signal T0500 600|end', 'unordered'),
                         ('submit Q000|fill X 0 4 1|end|submit Q001|fill X 0 4 2|end', 'race')):
        data, took, said = largest(tail), 9, b''
        for _ in range(3):
            before = os.times()
            said = tests.tool('explain', data=data).stdout
            took = min(took, sum(os.times()[2:4]) - sum(before[2:4]))
            if took < 5:
                break
        tests.check(f'4 MB, {answer}', answer.encode() in said.split(b'\n')[0] and took < 5, f'{took:.1f} s, {said[:80]}')
    held = most_memory([os.path.join(TOP, 'tools', 'explain'), '--vq', tests.program], data)
    tests.check('the memory for 4 MB', held < 300, f'{held:.0f} MB')
    for name, words in (('order', ['--format', 'dot']), ('schedule', ['--all', '1'])):
        before = os.times()
        done = tests.tool(name, *words, data=largest())
        took = sum(os.times()[2:4]) - sum(before[2:4])
        tests.check(f'4 MB for {name} {words}', done.returncode == 2 and b' has ' in done.stderr
                    and b'of up to 1,' in done.stderr and took < 5, (took, done.stderr))
    alone = tests.tool('explain', data=largest(), program=False, env={'PATH': '/usr/bin:/bin', 'HOME': '/'})
    tests.check('4 MB without vq', alone.returncode in (0, 1) or b'without vq' in alone.stderr, alone.stderr)
