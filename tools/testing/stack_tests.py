"""Tests of vq with a small stack (`ulimit -s`): what the pages say is enough, is."""
import os
import resource
import subprocess

from running import TOP

# What docs/MESSAGES.md and docs/vq.1 say, and how many runs there are.
KILOBYTES, RUNS = 48, 200
# A file of examples/ with the words that it is given with.
CASES = [('frame_loop.vq', []), ('frame_loop.vq', ['--check']), ('frame_loop.vq', ['--rounds']), ('race.vq', []),
         ('loader_thread.hosts', ['--hosts']), ('reused_point.replay', ['--replay']),
         ('point_given_away.audit', ['--audit']), ('copy.vq', ['--upgrade']), ('fill.vq', ['--generate', '3'])]
# Environments: none, a few words, and 2 KB.
ENVIRONMENTS = [{}, {'PATH': '/usr/bin:/bin', 'HOME': '/', 'LANG': 'C.UTF-8'},
                {f'WORD_{number}': 'x' * 90 for number in range(20)}]


def small_stack():
    resource.setrlimit(resource.RLIMIT_STACK, (KILOBYTES * 1024, resource.getrlimit(resource.RLIMIT_STACK)[1]))


def test_stack(tests):
    """Each of many runs gives the text that it gives with the usual stack: the place of the stack is chosen at random."""
    for page in ('MESSAGES.md', 'vq.1'):
        with open(os.path.join(TOP, 'docs', page), encoding='utf-8') as file:
            text = ' '.join(file.read().split())
        tests.check(f'the stack in docs/{page}', f'Below a stack of {KILOBYTES} KB' in text)
    cases = []
    for name, words in CASES:
        with open(os.path.join(TOP, 'examples', name), 'rb') as file:
            data = file.read()
        cases.append((words, data, subprocess.run([tests.program, *words], input=data, capture_output=True, check=False)))
    killed = []
    for number in range(RUNS):
        words, data, wanted = cases[number % len(cases)]
        environment = ENVIRONMENTS[number // len(cases) % len(ENVIRONMENTS)]
        done = subprocess.run([tests.program, *words], input=data, capture_output=True, check=False, env=environment,
                              preexec_fn=small_stack)
        if (done.returncode, done.stdout) != (wanted.returncode, wanted.stdout):
            killed.append((words, environment, done.returncode, done.stdout[:80]))
    tests.check(f'{RUNS} runs with {KILOBYTES} KB', not killed, f'{len(killed)} of {RUNS}: {killed[:4]}')
