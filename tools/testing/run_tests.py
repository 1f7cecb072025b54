"""Tests of run: its words, its inputs, and that what it prints and its status are those of vq."""
import os
import shutil

from running import TOP

FILL, RACE = (os.path.join(TOP, 'examples', name) for name in ('fill.vq', 'race.vq'))


def test_run(tests):
    tests.helps('run')
    for words in (['--chek', FILL], ['--check', '--replay', FILL], [FILL, RACE], ['--generate', '0'], ['--generate', 'x'],
                  ['--generate', '501'], ['--generate', '2', FILL], ['--vq', '/no/such/program', FILL]):
        tests.misused('run', *words)
    tests.misused('run', '/no/such/script', status=3, program=True)
    tests.misused('run', TOP, status=3, program=True)
    with open(FILL, 'rb') as file:
        script = file.read()
    for words, asked in ([[FILL], []], [['--check', FILL], ['--check']], [['--rounds', FILL], ['--rounds']],
                         [['--generate', '007'], ['--generate=7']], [['--upgrade', '-'], ['--upgrade']], [[], []]):
        done = tests.tool('run', *words, data=script)
        tests.check(f'run {words}', (done.returncode, done.stdout, done.stderr) == (0, tests.vq(script, *asked), b''), done)
    done = tests.tool('run', '--check', RACE)
    tests.check('run, refused', done.returncode == 2 and done.stdout == b'error: race: lines 6 and 9\n'
                and done.stderr.decode() == f'run: tools/explain {RACE} shows why, and mends that were tried\n', done)
    odd = tests.write('$(touch x) -a.vq', script)
    tests.check('run, an odd name', tests.tool('run', '--check', odd).stdout == b'lawful\n')
    shutil.copy(FILL, os.path.join(tests.folder, '-x.vq'))
    done = tests.tool('run', '--check', '--', '-x.vq', cwd=tests.folder)
    tests.check('run, a name that begins with a dash', done.stdout == b'lawful\n', done)
