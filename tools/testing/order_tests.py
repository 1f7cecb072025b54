"""Tests of order: pictures of what comes before what, of lawful and refused scripts, and the same for Graphviz."""
import os
import shutil
import subprocess

from pictures import picture
from running import TOP

DOT = shutil.which('dot')
# A script, the texts of its picture, and those of the text for Graphviz.
CASES = [
    ('frame_loop.vq', ['host', 'U', '17: submit U', 'TU 1, line 22', 'queue U', 'idle', 'F0, line 68',
                       'submitted behind it'],
     ['label="TU 1, line 22"', 'label="submitted behind it"']),
    ('race.vq', ['5: submit P', 'fill X 0 4 1', 'race: lines 6 and 9'],
     ['label="race: lines 6 and 9", color="#a50f15"']),
    ('unordered.vq', ['unordered: lines 6 and 9'], ['dir=none']),
    ('cycle.vq', ['unreachable: line 7', 'A 1, line 7', 'B 1, line 11'], ['label="A 1, line 7", color="#a50f15"']),
    ('fence_busy.vq', ['fence busy: line 7', '7: host fence reset F'], ['fence busy: line 7']),
    ('not_pending.vq', ['not pending: line 10'], ['not pending: line 10']),
    ('past_the_end.vq', ['range: line 5', '4: submit Q'], ['range: line 5']),
    ('no_signal.vq', ['no signal: line 6'], ['no signal: line 6']),
    ('fill.vq', [], ['digraph order']),
]


def test_order(tests):
    tests.helps('order')
    tests.keeps_its_temper('order', '--vq', tests.program)
    for words in (['--format', 'png'], ['one', 'other'], ['--vq', '/nowhere', '-']):
        tests.misused('order', *words)
    tests.misused('order', '/nowhere', status=3, program=True)
    done = tests.tool('order', data=b'x' * 1_000_001)
    tests.check('order of what is too large', done.returncode == 2 and b'of up to 1,000,000 are drawn' in done.stderr,
                done.stderr)
    many = b'queue Q threaded\n' + b'submit Q\nend\n' * 600
    done = tests.tool('order', data=many)
    tests.check('order of many batches', done.returncode == 2 and b'take --format dot' in done.stderr, done.stderr)
    tests.check('order of many batches as DOT', tests.tool('order', '--format', 'dot', data=many).returncode == 0)
    with open(os.path.join(TOP, 'docs', 'frame_loop.svg'), 'rb') as file:
        drawn = tests.tool('order', os.path.join(TOP, 'examples', 'frame_loop.vq')).stdout
        tests.check('docs/frame_loop.svg', file.read() == drawn, 'draw it again')
    for name, texts, rows in CASES:
        path = os.path.join(TOP, 'examples', name)
        picture(tests, f'order of {name}', tests.tool('order', path).stdout, texts)
        dot = tests.tool('order', '--format', 'dot', path).stdout
        missing = [row for row in rows if row not in dot.decode()]
        tests.check(f'order of {name} as DOT', not missing, f'{missing} in {dot.decode()}')
        if DOT:
            done = subprocess.run([DOT, '-Tsvg'], input=dot, capture_output=True, check=False)
            tests.check(f'dot of {name}', done.returncode == 0, done.stderr)
