"""Tests of install."""
import hashlib
import importlib.machinery
import importlib.util
import os
import shutil
import subprocess

from running import TOP

TOOLS = ('explain', 'draw', 'order', 'schedule', 'race')


def files_below(folder):
    return sorted(os.path.relpath(os.path.join(at, name), folder) for at, folders, names in os.walk(folder)
                  for name in names + folders)


def test_install(tests):
    tests.helps('install')
    for words in ([], ['one', 'other'], ['--prefix', '/x']):
        tests.misused('install', *words)
    prefix = os.path.join(tests.folder, 'prefix')
    tests.misused('install', '--remove', prefix, status=3)
    os.makedirs(os.path.join(prefix, 'bin'))
    own = os.path.join(prefix, 'bin', 'vq-draw')
    with open(own, 'w', encoding='utf-8'):
        pass
    tests.misused('install', prefix, status=4, program=True)
    os.remove(own)
    for _ in range(2):
        done = tests.tool('install', prefix)
        tests.check('install', done.returncode == 0 and not done.stderr, done.stderr)
    there = files_below(prefix)
    wanted = ['bin/vq', 'share/doc/vq/examples/race.vq', 'share/doc/vq/examples/drivers/wait_between.vq',
              'share/bash-completion/completions/vq', 'share/man/man1/vq.1']
    wanted += [f'{at}{name}{ending}' for name in TOOLS for at, ending in (
        ('bin/vq-', ''), ('share/man/man1/vq-', '.1'), ('share/bash-completion/completions/vq-', ''))]
    missing = [name for name in wanted if name not in there]
    tests.check('what is installed', not missing, missing)
    runs_from_the_path(tests, prefix)
    done = tests.tool('install', '--remove', prefix, program=False)
    tests.check('install --remove', done.returncode == 0 and files_below(prefix) == [], files_below(prefix))
    renewed_by_itself(tests, os.path.join(tests.folder, 'own'))
    stopped(tests, os.path.join(tests.folder, 'stopped'))
    obstacles(tests, os.path.join(tests.folder, 'obstacle'))
    left_alone(tests, os.path.join(tests.folder, 'others'))


def renewed_by_itself(tests, prefix):
    """The installed program as the one to install."""
    tests.tool('install', prefix)
    before = files_below(prefix)
    done = tests.tool('install', '--vq', os.path.join(prefix, 'bin', 'vq'), prefix, program=False)
    with open(os.path.join(prefix, 'bin', 'vq'), 'rb') as file, open(tests.program, 'rb') as same:
        tests.check('an installation by itself', done.returncode == 0 and file.read() == same.read()
                    and files_below(prefix) == before, done)


def stopped(tests, prefix):
    """An installation that stops after any of some files is made again, or taken out; a renewal loses nothing."""
    loader = importlib.machinery.SourceFileLoader('installer', os.path.join(TOP, 'tools', 'install'))
    installer = importlib.util.module_from_spec(importlib.util.spec_from_loader('installer', loader))
    loader.exec_module(installer)
    import placing
    copy, names = shutil.copy, sorted(installer.ALL_NAMES)
    for count in (0, 1, 40, len(names) - 20):
        for is_renewal in (False, True):
            if is_renewal:
                tests.tool('install', prefix)
            left = [count]

            def stopping(source, target):
                if not left[0]:
                    raise KeyboardInterrupt
                left[0] -= 1
                copy(source, target)
            placing.shutil.copy = stopping
            try:
                placing.Place(prefix, installer.RECORD, installer.ALL_NAMES).install(
                    installer.files(tests.program), dict(installer.links()))
                tests.check('a stop', False)
            except KeyboardInterrupt:
                pass
            placing.shutil.copy = copy
            missing = [name for name in names if not os.path.lexists(os.path.join(prefix, name))]
            tests.check(f'a renewal that stops after {count} files', not is_renewal or not missing, missing)
            if count % 2:
                done = tests.tool('install', prefix)
                tests.check('an installation again', done.returncode == 0, done.stderr)
            done = tests.tool('install', '--remove', prefix, program=False)
            tests.check(f'a stopped installation, taken out after {count} files', done.returncode == 0
                        and b'left' not in done.stdout and files_below(prefix) == [], (done, files_below(prefix)))


def obstacles(tests, prefix):
    """Where a file stands in the place of a folder, or a link leads out, nothing is put there."""
    os.makedirs(os.path.join(prefix, 'share'))
    tests.write('obstacle/share/doc', '')
    tests.misused('install', prefix, status=4, program=True)
    tests.check('an obstacle', files_below(prefix) == ['share', 'share/doc'], files_below(prefix))
    os.remove(os.path.join(prefix, 'share', 'doc'))
    outside = os.path.join(tests.folder, 'outside')
    os.makedirs(outside)
    os.makedirs(os.path.join(prefix, 'lib'))
    os.symlink(outside, os.path.join(prefix, 'lib', 'vq'))
    tests.misused('install', prefix, status=4, program=True)
    os.remove(os.path.join(prefix, 'lib', 'vq'))
    os.makedirs(os.path.join(prefix, 'man'))
    os.symlink('../man', os.path.join(prefix, 'share', 'man'))
    done = tests.tool('install', prefix)
    tests.check('no obstacle any more, and a link within', done.returncode == 0, done)
    # somebody moves the library out, and leaves a link
    os.rename(os.path.join(prefix, 'lib', 'vq'), os.path.join(outside, 'vq'))
    os.symlink(os.path.join(outside, 'vq'), os.path.join(prefix, 'lib', 'vq'))
    count = len(files_below(outside))
    done = tests.tool('install', '--remove', prefix, program=False)
    tests.check('nothing outside is taken out', done.returncode == 0 and len(files_below(outside)) == count
                and b'a link leads out of' in done.stdout and not os.path.exists(os.path.join(prefix, 'bin')), done)


def left_alone(tests, prefix):
    """What others put there, what was changed since, and names in the record that lead elsewhere."""
    tests.tool('install', prefix)
    victim = tests.write('victim', 'a file beside the prefix')
    tests.write('others/lib/vq/mine', 'a file of somebody else')
    tests.write('others/share/doc/vq/README.md', 'changed')
    tests.misused('install', prefix, status=4, program=True)
    with open(victim, 'rb') as file:
        own = 'sha256:' + hashlib.sha256(file.read()).hexdigest()
    with open(os.path.join(prefix, 'lib', 'vq', 'installed'), 'a', encoding='utf-8') as file:
        file.write(f'../victim\n{own} ../victim\n{victim}\n{own} {victim}\n{own} /\n\n \n\x00\nbin/../../victim\n')
    done = tests.tool('install', '--remove', prefix, program=False)
    said = done.stdout.decode()
    left = [name for name in files_below(prefix) if os.path.isfile(os.path.join(prefix, name))]
    tests.check('what is left alone', done.returncode == 0 and os.path.exists(victim) and 'README.md: it was changed' in said
                and said.count(' of the record: no file that was put there') == 8
                and left == ['lib/vq/mine', 'share/doc/vq/README.md'], (said, left))


def runs_from_the_path(tests, prefix):
    """What is installed stands alone: it is run in another folder, and finds its vq."""
    def run(words, data=b''):
        path = os.path.join(prefix, 'bin') + ':/usr/bin:/bin:' + os.path.dirname(subprocess.run(
            ['which', 'python3'], capture_output=True, check=False).stdout.decode().strip())
        return subprocess.run(words, input=data, capture_output=True, check=False, cwd='/',
                              env={**os.environ, 'PATH': path})
    race = os.path.join(TOP, 'examples', 'race.vq')
    tests.check('vq-explain', run(['vq-explain', race]).stdout.startswith(b'error: race: lines 6 and 9'))
    refused = run(['vq-run', '--check', race])
    tests.check('vq-run', refused.stdout == b'error: race: lines 6 and 9\n' and b'vq-run: vq-explain ' in refused.stderr)
    tests.check('vq-order', run(['vq-order', race]).stdout.startswith(b'<svg '))
    capture = b'queue Q\nresource X 8\nsubmit Q\nwrite X 0 8 copy\nnext\nread X 0 8 copy\nend\n'
    tests.check('vq-race', run(['vq-race'], capture).stdout.startswith(b'race: lines 4 and 6'))
    played = run(['vq-schedule', os.path.join(TOP, 'examples', 'copy.vq')]).stdout
    tests.check('vq-draw', run(['vq-draw'], run(['vq', '--replay'], played).stdout).stdout.startswith(b'<svg '))
    tests.check('its name', b'usage: vq-explain ' in run(['vq-explain', '--x']).stderr)
    os.remove(os.path.join(prefix, 'bin', 'vq'))
    alone = run(['vq-explain', race])
    same = alone.stdout.startswith(b'error: race: lines 6 and 9') and b'+ signal order 1' in alone.stdout
    tests.check('vq-explain without vq', same and alone.returncode == 2 and b'second reading' in alone.stderr, alone)
    counted = run(['vq-schedule', '--all', '2', os.path.join(TOP, 'examples', 'fill.vq')])
    tests.check('vq-schedule without vq', counted.returncode == 1 and b'usage: ' in counted.stderr, counted)
    completed = run(['bash', '-c', 'COMP_WORDS=(vq-explain --fo); COMP_CWORD=1; source ' + os.path.join(
        prefix, 'share/bash-completion/completions/vq-explain') + '; _vq_tool vq-explain; echo "${COMPREPLY[@]}"'])
    tests.check('completion', completed.stdout == b'--format\n', completed)
