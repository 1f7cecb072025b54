"""Tests that each script of fuzz/ and bench/ can fail: over a program that answers nothing, and where nothing is tried."""
import os
import shutil
import subprocess
import sys
import tempfile
from importlib.machinery import SourceFileLoader
from importlib.util import module_from_spec, spec_from_loader

from running import TOP

TRUE = '/bin/true'
# Scripts over a program that answers nothing; `bench/handles` and `bench/plain` take none, and end where what they need
# isn't there.
OVER_NOTHING = [
    ('fuzz/audit', '--seconds', '2'), ('fuzz/compare', '--seconds', '2'), ('fuzz/layer_audit', '--runs', '1'),
    ('bench/audits', '--runs', '1'), ('bench/captures', '--lines', '1000'),
    ('bench/contention', '--batches', '8', '--runs', '1'), ('bench/fair', '--runs', '1'), ('bench/measure', '--rounds', '1'),
    ('bench/pinned', '--runs', '1'), ('bench/rounds', '--runs', '1'), ('bench/table', '--runs', '1'),
    ('bench/live', '--runs', '1', '--rounds', '1000'), ('bench/steps', '--runs', '1', '--rounds', '1000'),
    ('bench/stress', '--runs', '1'), ('bench/phases', '--runs', '1')]
# Scripts over vq that try nothing.
NOTHING_TRIED = [('fuzz/audit', '--seconds', '0'), ('fuzz/compare', '--seconds', '0'), ('fuzz/mends', '--count', '0'),
                 ('bench/stress', '--runs', '0')]
# A program without a C library's malloc or threads: it writes a text.
ALONE = '#include <unistd.h>\nint main(void) { return write(1, "text\\n", 5) == 5 ? 0 : 1; }\n'


def run(*words):
    return subprocess.run(words, stdin=subprocess.DEVNULL, capture_output=True, check=False, timeout=300)


def test_able_to_fail(tests):
    for name, *words in OVER_NOTHING:
        done = run(os.path.join(TOP, name), TRUE, *words)
        tests.check(f'{name} over a program that answers nothing', done.returncode != 0, done)
    for name, *words in NOTHING_TRIED:
        done = run(os.path.join(TOP, name), tests.program, *words)
        tests.check(f'{name} {words}', done.returncode != 0, done)
    done = run(os.path.join(TOP, 'fuzz', 'hosts'), '--count', '0')
    tests.check('fuzz/hosts that tries nothing', done.returncode != 0, done)
    if not shutil.which('cc'):
        print('NOT TESTED: fuzz/memory and fuzz/threads, as there is no C compiler')
        return
    without_refusals(tests)


def without_refusals(tests):
    """A program whose allocations, and one whose threads, can't be refused is no success."""
    alone = os.path.join(tests.folder, 'alone')
    done = subprocess.run(['cc', '-static', '-o', alone, '-x', 'c', '-'], input=ALONE.encode(), capture_output=True,
                          check=False)
    if done.returncode:
        print('NOT TESTED: fuzz/memory, as there is no static C library')
    else:
        sys.path.insert(0, os.path.join(TOP, 'bench'))
        loader = SourceFileLoader('refusing_memory', os.path.join(TOP, 'fuzz', 'memory'))
        memory = module_from_spec(spec_from_loader('refusing_memory', loader))
        loader.exec_module(memory)
        with tempfile.TemporaryDirectory() as folder:
            library = os.path.join(folder, 'refusing.so')
            subprocess.run(['cc', '-shared', '-fPIC', '-o', library, '-x', 'c', '-'], input=memory.REFUSING.encode(),
                           check=True)
            row = memory.Try('a program without malloc', [alone], b'', 5, lambda text: text == b'text\n')
            counted = os.path.join(folder, 'counted')
            tests.check('fuzz/memory without allocations', not row.refuse_each(library, counted, 10))
    hidden = tests.write('hidden', f'#!/bin/sh\nunset LD_PRELOAD\nexec {tests.program} "$@"\n')
    os.chmod(hidden, 0o755)
    done = run(os.path.join(TOP, 'fuzz', 'threads'), hidden, '--scripts', '0')
    tests.check('fuzz/threads without refusals', done.returncode != 0 and b'no start of a thread was refused' in done.stdout,
                done.stdout[-200:])
    done = run(os.path.join(TOP, 'fuzz', 'threads'), tests.program, '--scripts', '2')
    tests.check('fuzz/threads with refusals', done.returncode == 0, done.stdout[-400:])
