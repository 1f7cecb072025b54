"""Tests of run-example: its words, the program that it builds without its proof, and when it builds that anew."""
import glob
import os
import shutil
import subprocess
import sys
import time

from running import TOP

# The words of vq for a file of examples/, by its ending.
WORDS = {'.vq': [[], ['--check'], ['--rounds'], ['--upgrade']], '.replay': [['--replay']], '.audit': [['--audit']],
         '.hosts': [['--hosts']]}
# A text that some source of vq has, and another one in its place.
TEXT, OTHER = 'b"error: words\\n"', 'b"error: other\\n"'


def run(words, data=b'', **options):
    return subprocess.run(words, input=data, capture_output=True, check=False, timeout=600, **options)


def test_run_example(tests):
    says_before_it_builds(tests)
    if not shutil.which('rustc'):
        print('NOT TESTED: what run-example builds, as there is no rustc')
        return
    folder = os.path.join(tests.folder, 'unproved')
    done = run([os.path.join(TOP, 'tools', 'unproved', 'build'), folder])
    tests.check('the unproved program is built', done.returncode == 0 and b'without its proof' in done.stderr,
                done.stderr)
    if done.returncode == 0:
        answers_as_the_proved_one(tests, os.path.join(folder, 'vq'))
    judges_captures(tests, folder)
    takes_all_words(tests)
    starts_at_once(tests)
    is_built_anew(tests)


def judges_captures(tests, folder):
    """The unproved vqc says of the worked captures what their verdicts are."""
    done = run([os.path.join(TOP, 'tools', 'unproved', 'build'), '--vqc', folder])
    program = os.path.join(folder, 'vqc')
    tests.check('the unproved vqc is built', done.stdout.decode().strip() == program, done.stderr)
    endings = run([os.path.join(TOP, 'fuzz', 'captures.py'), '--beside', program, '--seconds', '2'])
    tests.check('the unproved vqc judges', endings.returncode == 0, endings.stdout)


def says_before_it_builds(tests):
    for words, status in ((['--chek'], 1), (['one', 'other'], 1), (['--generate'], 1), (['/nowhere'], 3), (['/'], 3)):
        done = run([os.path.join(TOP, 'run-example'), *words])
        said = done.stderr.decode()
        tests.check(f'run-example {words}', done.returncode == status and said.startswith('run-example: ')
                    and ('usage: ' in said or status == 3) and not done.stdout, said)
    done = run([os.path.join(TOP, 'run-example'), '--help'])
    said = done.stdout.decode()
    tests.check('run-example --help', done.returncode == 0 and said.startswith('usage: ./run-example')
                and max(map(len, said.split('\n'))) <= 120 and 'tools/explain SCRIPT, at once' in said, said)


def answers_as_the_proved_one(tests, unproved):
    """Each example with each word that it has, wrong words, and the streams of the process."""
    for path in sorted(glob.glob(os.path.join(TOP, 'examples', '*.*'))):
        with open(path, 'rb') as file:
            data = file.read()
        for words in WORDS.get(os.path.splitext(path)[1], []):
            same(tests, unproved, words, data)
    for words in (['--generate', '20'], ['--generate=20'], ['--generate', '0'], ['--check', '--check'], ['-c'], ['--'],
                  ['--check=1'], ['--generate', '--check']):
        same(tests, unproved, words, b'')
    for streams in ('<&-', '</dev/null >&-', '</dev/null >/dev/full'):
        command = ['bash', '-c', f'"$0" {streams}']
        tests.check(f'the unproved program {streams}', run([*command, unproved]).returncode
                    == run([*command, tests.program]).returncode)


def same(tests, unproved, words, data):
    one, other = (run([program, *words], data) for program in (unproved, tests.program))
    tests.check(f'the unproved program with {words}', (one.returncode, one.stdout, one.stderr)
                == (other.returncode, other.stdout, other.stderr), (data, one, other))


def takes_all_words(tests):
    """run-example itself, with each word, a file and the standard input."""
    for name, words in (('copy.vq', []), ('copy.vq', ['--check']), ('copy.vq', ['--upgrade']), ('copy.vq', ['--rounds']),
                        ('held_copy.replay', ['--replay']), ('point_given_away.audit', ['--audit']),
                        ('loader_thread.hosts', ['--hosts']), ('race.vq', [])):
        path = os.path.join(TOP, 'examples', name)
        with open(path, 'rb') as file:
            data = file.read()
        wanted = run([tests.program, *words], data)
        for script, given in ((path, b''), ('-', data)):
            done = run([os.path.join(TOP, 'run-example'), *words, script], given)
            tests.check(f'run-example {words} {name}', (done.returncode, done.stdout)
                        == (wanted.returncode, wanted.stdout) and b"proof isn't checked" in done.stderr, done)


def starts_at_once(tests):
    """What was built is used again: a second start takes less than a second of one processor."""
    start, before = time.monotonic(), os.times()
    done = run([os.path.join(TOP, 'run-example'), os.path.join(TOP, 'examples', 'copy.vq')])
    after = os.times()
    took = min(time.monotonic() - start, sum(after[2:4]) - sum(before[2:4]))
    tests.check('a second start', done.returncode == 0 and took < 1 and b'built in' not in done.stderr, f'{took} s')


def is_built_anew(tests):
    """A program is built again where one of its sources has another text, and not else."""
    top = os.path.join(tests.folder, 'sources')
    sys.path.insert(0, os.path.join(TOP, 'tools', 'unproved'))
    from translating import below, files_of, read_table
    crates = below(['vq_main'], read_table(TOP))
    for crate in crates:
        shutil.copytree(os.path.join(TOP, 'crates', crate, 'src'), os.path.join(top, 'crates', crate, 'src'))
    shutil.copytree(os.path.join(TOP, 'tools', 'unproved'), os.path.join(top, 'tools', 'unproved'))
    shutil.copy(os.path.join(TOP, 'crates.txt'), top)
    build = [os.path.join(top, 'tools', 'unproved', 'build')]
    tests.check('a copy of the sources has the same program', b'built in' not in run(build).stderr)
    for _, _, path in files_of(crates, os.path.join(top, 'crates')):
        with open(path, encoding='utf-8') as file:
            text = file.read()
        if TEXT in text:
            with open(path, 'w', encoding='utf-8') as file:
                file.write(text.replace(TEXT, OTHER))
    done = run(build)
    said = run([done.stdout.decode().strip(), '--chek']).stdout
    tests.check('a source with another text', b'built in' in done.stderr and said == b'error: other\n', (done, said))
