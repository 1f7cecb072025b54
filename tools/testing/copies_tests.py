"""Tests of vendor and of libs: crates in another repository, and libraries for C below a folder."""
import hashlib
import json
import os
import shutil
import subprocess
import sys

from running import TOP

CRATES = ['vq_script', 'vq_order', 'vq_port']


def read(*parts):
    with open(os.path.join(*parts), encoding='utf-8') as file:
        return file.read()


def test_vendor(tests):
    tests.helps('vendor')
    other = os.path.join(tests.folder, 'other')
    os.makedirs(os.path.join(other, 'crates'))
    for words in ([], [other], ['vq_order'], ['vq_orders', other], ['--update', 'vq_order', other],
                  ['vq_order', '/nowhere/x']):
        tests.misused('vendor', *words)
    tests.misused('vendor', '--update', other, status=3)
    tests.write('other/crates.txt', '# Ours.\nmine: vq_order\n')
    os.makedirs(os.path.join(other, 'crates', 'vq_port'))
    tests.misused('vendor', *CRATES, other, status=4)
    os.rmdir(os.path.join(other, 'crates', 'vq_port'))
    done = tests.tool('vendor', *CRATES, other, program=False)
    sys.path.insert(0, os.path.join(TOP, 'tools', 'unproved'))
    from translating import below, read_table
    wanted = below(CRATES, read_table(TOP))
    tests.check('vendor', done.returncode == 0 and f'{len(wanted)} crates are in'.encode() in done.stdout, done)
    table, record = read(other, 'crates.txt'), json.loads(read(other, 'crates', 'vq.vendored'))
    # each crate stands behind those that it stands on, with the line that it has here, and the lines of others stay
    here = [line for line in read(TOP, 'crates.txt').splitlines() if line in table.splitlines()]
    crates = [line.split(':')[0].split()[0] for line in here if ':' in line]
    tests.check('the lines of crates.txt', crates == wanted and table.endswith('# Ours.\nmine: vq_order\n')
                and record['commit'] in table and sorted(CRATES) == record['asked'], table)
    for crate in crates:
        folders = [os.path.isdir(os.path.join(at, crate, 'src')) for at in (os.path.join(TOP, 'crates'),
                                                                          os.path.join(other, 'crates'))]
        tests.check(f'the sources of {crate}', all(folders), folders)
    tests.check('nothing that was built', not os.path.exists(os.path.join(other, 'crates', 'vq_order', 'out')))
    name = next(name for name in record['files'] if name.startswith('vq_port/src/'))
    tests.check('a source', read(TOP, 'crates', name) == read(other, 'crates', name))
    updates(tests, other, name)


def updates(tests, other, name):
    """A copy that was changed isn't written over; an old one is, and one that isn't needed is taken out."""
    path = os.path.join(other, 'crates', name)
    kept = read(path)
    tests.write(os.path.join('other/crates', name), 'changed')
    tests.misused('vendor', '--update', other, status=4)
    os.remove(path)
    record = json.loads(read(other, 'crates', 'vq.vendored'))
    # as if an earlier state had had one file more, and vq_port not been asked for
    os.makedirs(os.path.join(other, 'crates', 'vq_gone', 'src'))
    shutil.copy(os.path.join(TOP, 'LICENSE'), os.path.join(other, 'crates', 'vq_gone', 'src', 'lib.rt'))
    some = next(iter(record['files']))
    with open(os.path.join(TOP, 'LICENSE'), 'rb') as file:
        record['files']['vq_gone/src/lib.rt'] = hashlib.sha256(file.read()).hexdigest()
    tests.write('other/crates/vq.vendored', json.dumps(record))
    done = tests.tool('vendor', '--update', other, program=False)
    tests.check('vendor --update', done.returncode == 0 and read(path) == kept and os.path.exists(os.path.join(
        other, 'crates', some)) and not os.path.exists(os.path.join(other, 'crates', 'vq_gone')), done)
    tests.check('one part of crates.txt', read(other, 'crates.txt').count('# Copied by') == 1, read(other, 'crates.txt'))


def test_libs(tests):
    """What is put where, over stand-ins for the archives; a program is compiled by what pkg-config says of them."""
    tests.helps('libs')
    for words in ([], ['one', 'other'], ['--archives', '/nowhere', os.path.join(tests.folder, 'libs')]):
        tests.misused('libs', *words)
    prefix, archives = os.path.join(tests.folder, 'libraries'), os.path.join(tests.folder, 'archives')
    tests.misused('libs', '--remove', prefix, status=3)
    # what a build takes is said before it begins, here by an rt that builds nothing
    os.makedirs(os.path.join(tests.folder, 'nothing'))
    os.chmod(tests.write('nothing/rt', '#!/bin/sh\nexit 1\n'), 0o755)
    done = tests.tool('libs', '--anew', prefix, program=False, env={
        **os.environ, 'PATH': os.path.join(tests.folder, 'nothing') + ':' + os.environ['PATH']})
    tests.check('how long libs takes', done.returncode == 2 and b' minutes of one' in done.stderr
                and b' 0 minutes' not in done.stderr, done)
    if not shutil.which('cc') or not shutil.which('ar'):
        print('NOT TESTED: libs, as there is no C compiler')
        return
    os.makedirs(archives)
    for name, call in (('vq_c', 'vq_version'), ('vq_live_c', 'vq_live_value'), ('vq_layer_c', 'vq_layer_version'),
                       ('libc_c', 'rattle_alloc')):
        source = tests.write(f'archives/{name}.c', f'int {call}(void); int {call}(void) {{ return 7; }}\n')
        subprocess.run(['cc', '-c', source, '-o', source + '.o'], check=True)
        subprocess.run(['ar', 'rc', os.path.join(archives, f'lib{name}.a'), source + '.o'], check=True)
    done = tests.tool('libs', '--archives', archives, prefix, program=False)
    tests.check('libs', done.returncode == 0 and b'11 files are below' in done.stdout, done)
    for header in ('vq.h', 'vq_live.h', 'vq_layer.h', 'vq_alloc.h'):
        tests.check(f'include/{header}', read(prefix, 'include', header) == read(TOP, 'c', header))
    if shutil.which('pkg-config'):
        for package, call in (('vq', 'vq_version'), ('vq-live', 'vq_live_value'), ('vq-layer', 'vq_layer_version')):
            said = subprocess.run(['pkg-config', '--cflags', '--libs', package], capture_output=True, check=False, env={
                **os.environ, 'PKG_CONFIG_PATH': os.path.join(prefix, 'lib', 'pkgconfig')})
            source = tests.write(f'{package}.c', f'int {call}(void); int main(void) {{ return {call}(); }}\n')
            built = subprocess.run(['cc', source, *said.stdout.decode().split(), '-o', source + '.out'], check=False)
            tests.check(f'pkg-config {package}', built.returncode == 0 and subprocess.run(
                [source + '.out'], check=False).returncode == 7, said)
    else:
        print('NOT TESTED: the files for pkg-config, as there is none')
    done = tests.tool('libs', '--remove', prefix, program=False)
    tests.check('libs --remove', done.returncode == 0 and os.listdir(prefix) == [], done)
