"""Tests of draw and of schedule: pictures of traces, and schedules that finish."""
import os

from pictures import picture
from running import TOP


def long_script(batches):
    """A script of batches that wait for one another round four queues, all with names as long as names may be."""
    rows = ['buffer a_long_buffer_nm 64']
    for q in range(4):
        rows += [f'timeline a_long_timelin{q} 0', f'queue graphics_queue_{q} {"threaded" if q else "deferred"}']
    for k in range(batches):
        waits = [f'wait a_long_timelin{(k - 1) % 4} {(k - 1) // 4 + 1}'] if k else []
        rows += [f'submit graphics_queue_{k % 4}', *waits, f'fill a_long_buffer_nm 0 16 {k}',
                 f'signal a_long_timelin{k % 4} {k // 4 + 1}', 'end']
    return '\n'.join(rows + ['host idle', '']).encode()


def test_draw(tests):
    tests.helps('draw')
    tests.keeps_its_temper('draw')
    tests.misused('draw', '--turns', '5-2')
    tests.misused('draw', '--script')
    tests.misused('draw', 'one', 'other')
    for words in (['/nowhere'], ['/'], ['--script', '/nowhere']):
        tests.misused('draw', *words, status=3)
    example = os.path.join(TOP, 'examples', 'reused_point.replay')
    with open(example, 'rb') as file:
        trace = tests.vq(file.read(), '--replay')
    lines = trace.split(b'\n')
    for what, data in (('nothing', b''), ('a word', b'hello\n'), ('an answer', b'lawful\n'),
                       ('no head', b'\n'.join(lines[4:])), ('no end', b'\n'.join(lines[:4])),
                       ('a number again', b'\n'.join(lines[:1] + lines)),
                       ('no take', b'1 R:Q look 0 A 1\n2 R:Q signal A 1\nfinished\n'), ('bytes', b'\xff\xfe\x00')):
        done = tests.tool('draw', data=data, program=False)
        tests.check(f'draw refuses {what}', done.returncode == 2 and not done.stdout and done.stderr.count(b'\n') == 1
                    and b'is no trace' in done.stderr, done.stderr)
    drawn = tests.tool('draw', '--script', example, data=trace, program=False).stdout
    picture(tests, 'draw', drawn, ['host', 'R:Q', 'point 1', 'turn', 'take', 'A 3, reused point 0', '6: submit P',
                                   'unfinished 3: of lines 10, 13, 16'])
    lines_are_those_of_vq(tests)
    traces_of_others(tests)
    many_turns(tests)
    picture_of_the_documents(tests)


def lines_are_those_of_vq(tests):
    """Form feeds and other bytes in comments end no line."""
    script = b'# a\x0cb \xe9 \x85\r\nqueue xfer immediate\r\nsubmit xfer\r\nend\r\nschedule\r\nhost 9\r\nR:xfer 9\r\n'
    path = tests.write('odd.replay', script)
    drawn = tests.tool('draw', '--script', path, data=tests.vq(script, '--replay'), program=False).stdout
    picture(tests, 'draw with odd lines', drawn, ['3: submit xfer', 'finished'])


def traces_of_others(tests):
    """Numbers may have gaps and be hexadecimal, and lines may have comments: a trace that another layer wrote."""
    trace = (b'# ours\n0x10 host submit 2\n\n20\tS:Q  take A 0x7 fresh 0 # new\r\n21 S:Q release 2\n30 S:Q bind A 7 0\n'
             b'unfinished 1\n')
    drawn = tests.tool('draw', data=trace, program=False).stdout
    picture(tests, 'draw a given trace', drawn, ['16', '20', '30', 'A 7, fresh point 0', 'unfinished 1'])


def many_turns(tests):
    played = tests.tool('schedule', '--random', '--seed', '3', data=long_script(60), program=False).stdout
    trace = tests.vq(played, '--replay')
    turns = trace.split(b'\nfinished\n')[0].count(b'\n') + 1
    tests.check('many turns', turns > 500 and b'\nfinished\n' in trace, turns)
    path = tests.write('long.replay', played)
    drawn = tests.tool('draw', '--script', path, data=trace, program=False).stdout
    picture(tests, 'draw many turns', drawn, ['R:graphics_queue_3', 'point 0', '1', '500', str(turns), 'finished'])
    some = tests.tool('draw', '--turns', '100-110', data=trace, program=False).stdout
    picture(tests, 'draw some turns', some, ['100', '110'])


def picture_of_the_documents(tests):
    """The picture in docs/TURNS.md is that of the script before it."""
    with open(os.path.join(TOP, 'docs', 'TURNS.md'), encoding='utf-8') as file:
        before = file.read().split('](reused_point.svg)')[0]
    script = before.rsplit('```replay\n', 1)[1].split('```')[0].encode()
    path = tests.write('documented.replay', script)
    drawn = tests.tool('draw', '--script', path, data=tests.vq(script, '--replay'), program=False).stdout
    with open(os.path.join(TOP, 'docs', 'reused_point.svg'), 'rb') as file:
        tests.check('docs/reused_point.svg', file.read() == drawn, 'draw it again')


# Schedules.

POLLED = (b'timeline A 0\nqueue P threaded\nsubmit P\nsignal A 1\nend\nhost read A\nhost poll all A 1\n'
          b'schedule\nhost\n')


def test_schedule(tests):
    tests.helps('schedule')
    tests.keeps_its_temper('schedule')
    for words in (['--rounds', '0'], ['--all', 'x'], ['--random', '--rounds', '2'], ['--seed', '-1'], ['one', 'other'],
                  ['--starve']):
        tests.misused('schedule', *words)
    refused = tests.tool('schedule', data=b'buffer X 0\n', program=False)
    tests.check('schedule of a refused script', refused.returncode == 2 and b'error: range: line 1' in refused.stderr,
                refused.stderr)
    starved = tests.tool('schedule', '--starve', 'S:Q', data=POLLED, program=False)
    tests.check('schedule of no actor', starved.returncode == 1 and b'usage: ' in starved.stderr, starved.stderr)
    texts = set()
    for words in ([], ['--rounds', '3'], ['--random'], ['--random', '--seed', '2'], ['--starve', 'host'],
                  ['--starve', 'S:P'], ['--starve', 'R:P']):
        played = tests.tool('schedule', *words, data=POLLED, program=False).stdout
        trace = tests.vq(played, '--replay')
        tests.check(f'schedule {words}', b'\nfinished\n' in trace and b' -\n' not in trace, trace)
        texts.add(trace.partition(b'\nfinished\n')[2])
        turns = tests.tool('schedule', '--turns', *words, data=POLLED, program=False).stdout
        tests.check(f'schedule {words} --turns', turns and played.endswith(turns) and turns.startswith(b'schedule\n'))
    tests.check('schedules differ', len(texts) > 1, texts)
    counted = tests.tool('schedule', '--all', '40', data=POLLED).stdout.decode()
    head, *rows = counted.split('\n')
    times = [int(row.split()[0]) for row in rows if ' times, first with' in row]
    tests.check('schedule --all', head.startswith('40 schedules, ') and sum(times) == 40 and len(times) > 1, counted)
