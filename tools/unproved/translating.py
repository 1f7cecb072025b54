"""The sources of crates as plain Rust: without clauses, ghosts and what the prover is told, the rest is nearly so."""
import os
import re
import shutil
import subprocess
import sys

HERE = os.path.dirname(os.path.abspath(__file__))
# What stands for Rattle's library and for the host.
LIBRARY = ('rstd', 'host', 'atomic_table', 'clap', 'crossbeam_utils')
CLAUSE = re.compile(r'(?m)^[ \t]*(requires|ensures)\*?\b[^\{\n]*\{')
GHOST = re.compile(r'(?m)^[ \t]*(pub )?ghost [^\{\n]*\{')
MORE = re.compile(r'\s*(?:by|=) \{')
IMPL = re.compile(r'(?m)^impl(<[^\n]*>)? (Drop|Model) for [^\{\n]*\{')


def end_of(text, at):
    """The place behind the brace that closes one which was opened just before this place."""
    depth = 1
    while depth:
        depth += {'{': 1, '}': -1}.get(text[at], 0)
        at += 1
    return at


def without(pattern, text, after='', more=None):
    """The text without what begins as the pattern and ends with the brace that closes it, and these bytes behind it."""
    kept, at = [], 0
    while begun := pattern.search(text, at):
        kept.append(text[at:begun.start()])
        at = end_of(text, begun.end())
        while more and (begun := more.match(text, at)):
            at = end_of(text, begun.end())
        while text[at:at + 1] and text[at] in after:
            at += 1
        at += text[at:at + 1] == '\n'
    return ''.join(kept) + text[at:]


def plain(crates, crate, text):
    """What is left of a file of a crate, as a file of that crate's module."""
    text = re.sub(r'(?m)^([ \t]*)//[/!]', r'\1//', text)
    text = re.sub(r'(?m)^[ \t]*#!?\[tactic\([^\n]*\)\]\n', '', text)
    text = re.sub(r'(?m)^[ \t]*(pub )?ghost use [^;]*;\n?', '', text)
    text = without(CLAUSE, without(IMPL, without(GHOST, text, ',;', MORE)))
    text = re.sub(r'#\[derive\(Drop\)\]\n| \+ Drop\b', '', text)
    text = re.sub(r'fn fmt<W: fmt::Write>\(&self, f: &mut fmt::Formatter<W>\)', 'fn fmt(&self, f: &mut fmt::Formatter)', text)
    text = re.sub(r'\bcrate::', f'crate::{crate}::', text)
    text = re.sub(rf'(?<![\w:])({"|".join(crates)})::', r'crate::\1::', text)
    text = re.sub(r'vec!\[in alloc; ([^;\]]*); ([^\]]*)\]', r'crate::rstd::vec_of(alloc, \1, \2)', text)
    text = re.sub(r'vec!\[in alloc; ([^;\]]*)\]', r'crate::rstd::vec_from(alloc, [\1])', text)
    text = re.sub(r'format!\(in alloc; ', r'crate::format_in!(alloc; ', text)
    text = re.sub(r'(?<![\w:])std::', 'crate::rstd::', text)
    text = re.sub(r'\buse (memchr|itoa)::', r'use crate::rstd::\1::', text)
    text = re.sub(r'\buse (atomic_table|clap|crossbeam_utils)::', r'use crate::\1::', text)
    text = re.sub(r'(?m)^fn main\(', 'pub fn main(', text)
    return 'use crate::rstd::prelude::*;\n' + text


def below(names, table):
    """Some crates of crates.txt and all that they stand on, in the order of that file."""
    found, left = set(names), list(names)
    while left:
        more = [other for other in table[left.pop()] if other in table and other not in found]
        found.update(more)
        left += more
    return [crate for crate in table if crate in found]


def read_table(top):
    """Of each crate of crates.txt those that it stands on."""
    table = {}
    with open(os.path.join(top, 'crates.txt'), encoding='utf-8') as file:
        for line in file:
            head, mark, others = line.partition('#')[0].partition(':')
            if mark:
                table[head.split()[0]] = others.split()
    return table


def files_of(crates, folder):
    """The sources of some crates in a folder: the crate, the path of a file in it, and where that is."""
    for crate in crates:
        root = os.path.join(folder, crate, 'src')
        for at, _, names in sorted(os.walk(root)):
            for name in sorted(names):
                path = os.path.join(at, name)
                yield crate, os.path.relpath(path, root), path


def compiled(source, program, *flags):
    """Starts rustc on SOURCE/main.rs. It leaves the program."""
    command = ['rustc', '--edition', '2021', '-O', '-C', 'panic=abort', *flags, '-o', program]
    return subprocess.Popen([*command, os.path.join(source, 'main.rs')], stdout=sys.stderr)


def translate(crates, folder, out, main, head=''):
    """Leaves OUT/main.rs and all that it takes: the crates of a folder as modules, the library, and the text of main
    behind this head."""
    shutil.rmtree(out, ignore_errors=True)
    for crate, name, path in files_of(crates, folder):
        name = name[:-len('.rt')]
        target = os.path.join(out, crate, ('mod' if name in ('lib', 'main') else name) + '.rs')
        os.makedirs(os.path.dirname(target), exist_ok=True)
        with open(path, encoding='utf-8') as file, open(target, 'w', encoding='utf-8') as written:
            written.write(plain(crates, crate, file.read()))
    for name in LIBRARY:
        shutil.copy(os.path.join(HERE, f'{name}.rs'), out)
    with open(os.path.join(out, 'main.rs'), 'w', encoding='utf-8') as written:
        modules = [f'#[macro_use] mod {LIBRARY[0]};', *(f'mod {name};' for name in [*LIBRARY[1:], *crates])]
        written.write('\n'.join([head + '#![allow(warnings)]', *modules, '', main]))
