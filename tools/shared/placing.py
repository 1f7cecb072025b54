"""Files that are put below a folder, and taken out again: none is lost where that is stopped, or others are there."""
import glob
import hashlib
import os
import shutil

from command import UNREADABLE, UNWRITABLE, Failure

# What a file is called before it is renamed; and what a name may be of which no checksum was noted.
NEW, ANY = '.vq-new', 'any'


class Place:
    """A folder below which files are put. The record of them lies there too, and has this name; `older` are names that
    a record may have without their checksums."""

    def __init__(self, prefix, record, older=()):
        self.prefix = os.path.abspath(prefix)
        self.root = os.path.realpath(self.prefix)
        self.record_name, self.record = record, os.path.join(self.prefix, record)
        # What was put there, by its name: what it may be, as `sum_of` and `link_to` say it.
        self.known, self.odd = {}, []
        for line in self.lines():
            mark, _, name = line.partition(' ')
            if name and is_name(name) and (mark.startswith('sha256:') or mark.startswith('link:')):
                self.known.setdefault(name, set()).add(mark)
            elif is_name(line) and line in older:
                self.known.setdefault(line, set()).add(ANY)
            elif line:
                self.odd.append(line)

    def path(self, name):
        return os.path.join(self.prefix, name)

    def lines(self):
        try:
            with open(self.record, encoding='utf-8', errors='replace') as file:
                return file.read().splitlines()
        except FileNotFoundError:
            return []

    def is_inside(self, name):
        """Whether no link leads from the prefix to elsewhere on the way to a name."""
        folder = os.path.realpath(os.path.dirname(self.path(name)))
        return folder == self.root or folder.startswith(self.root.rstrip('/') + '/')

    def is_ours(self, name):
        """Whether what stands at a name is what was put there."""
        marks = self.known.get(name, set())
        return self.is_inside(name) and (mark_of(self.path(name)) in marks or ANY in marks and not os.path.isdir(
            self.path(name)))

    def note(self, entries):
        """Writes the record: names, each with all that it may be."""
        os.makedirs(os.path.dirname(self.record), exist_ok=True)
        with open(self.record + NEW, 'w', encoding='utf-8') as file:
            rows = [f'{mark} {name}\n' for name, marks in entries.items() for mark in sorted(marks) if mark != ANY]
            file.write(''.join(rows))
        os.replace(self.record + NEW, self.record)

    def install(self, files, links):
        """Puts files in place, by their names and where they are now, and links, by their names and where they lead;
        gives how many they are."""
        made = {name: {mark_of(source, True)} for name, source in files.items()}
        made |= {name: {link_to(target)} for name, target in links.items()}
        self.refuse_others(made)
        # noted before it is made: what stands there is the old or the new one at any time
        self.note({name: self.known.get(name, set()) | made.get(name, set()) for name in {**self.known, **made}})
        for name, source in files.items():
            os.makedirs(os.path.dirname(self.path(name)), exist_ok=True)
            shutil.copy(source, self.path(name) + NEW)
            os.chmod(self.path(name) + NEW, 0o755 if os.access(source, os.X_OK) else 0o644)
            os.replace(self.path(name) + NEW, self.path(name))
        for name, target in links.items():
            os.makedirs(os.path.dirname(self.path(name)), exist_ok=True)
            if os.path.lexists(self.path(name) + NEW):
                os.remove(self.path(name) + NEW)
            os.symlink(target, self.path(name) + NEW)
            os.replace(self.path(name) + NEW, self.path(name))
        self.take_out([name for name in self.known if name not in made])
        self.note(made)
        return len(made)

    def refuse_others(self, names):
        """Stops before anything is changed where a name is taken, or where no folder can be on the way to it."""
        for name in names:
            folder = os.path.dirname(self.path(name))
            while not os.path.lexists(folder):
                folder = os.path.dirname(folder)
            if not os.path.isdir(folder):
                raise Failure(UNWRITABLE, f'{folder} is no folder')
            if not self.is_inside(name):
                raise Failure(UNWRITABLE, f'{os.path.dirname(self.path(name))} leads out of {self.prefix}')
            if os.path.lexists(self.path(name)) and not self.is_ours(name):
                why = 'was changed since it was put there' if name in self.known else \
                    'is there, and wasn\'t put there by this'
                raise Failure(UNWRITABLE, f'{self.path(name)} {why}')

    def take_out(self, names):
        """Takes out what is still as it was put there, and the folders that are empty then; gives what was taken out,
        and what is left."""
        taken, left = [], []
        for name in names:
            if self.is_inside(name) and os.path.isfile(self.path(name) + NEW):
                os.remove(self.path(name) + NEW)
            if not os.path.lexists(self.path(name)):
                continue
            if self.is_ours(name):
                os.remove(self.path(name))
                taken.append(name)
                self.take_compiled(name)
            else:
                left.append(f'{self.path(name)}: ' + ('it was changed since' if self.is_inside(name) else
                                                      f'a link leads out of {self.prefix}'))
        for name in names:
            self.take_folders(os.path.dirname(name))
        return taken, left

    def take_compiled(self, name):
        """Takes out what Python left beside a file of its own."""
        folder, base = os.path.split(self.path(name))
        for path in glob.glob(os.path.join(glob.escape(folder), '__pycache__', glob.escape(base[:-3]) + '.*.pyc')):
            if name.endswith('.py') and os.path.isfile(path):
                os.remove(path)
        self.take_folders(os.path.join(os.path.dirname(name), '__pycache__'))

    def take_folders(self, folder):
        """Takes out a folder and those above it, as far as they are empty."""
        while folder and self.is_inside(os.path.join(folder, 'x')):
            path = self.path(folder)
            if os.path.isdir(path) and not os.path.islink(path) and not os.listdir(path):
                os.rmdir(path)
            folder = os.path.dirname(folder)

    def remove(self):
        """Takes all out, and gives how many files that were, and what is left."""
        if not self.known and not self.odd:
            raise Failure(UNREADABLE, f'nothing is installed below {self.prefix}')
        taken, left = self.take_out(list(self.known))
        left += [f'{line!r} of the record: no file that was put there' for line in self.odd]
        if self.is_inside(self.record_name):
            os.remove(self.record)
            self.take_folders(os.path.dirname(self.record_name))
        return len(taken), left


def is_name(name):
    """Whether this is a path below a folder, without ways up."""
    return os.path.normpath(name) == name and not os.path.isabs(name) and name.split('/')[0] not in ('..', '.', '') \
        and '\0' not in name


def mark_of(path, through_links=False):
    """What a path is: a link to somewhere, or a file with a checksum; None for what is neither."""
    if os.path.islink(path) and not through_links:
        return link_to(os.readlink(path))
    if not os.path.isfile(path):
        return None
    with open(path, 'rb') as file:
        return 'sha256:' + hashlib.sha256(file.read()).hexdigest()


def link_to(target):
    return f'link:{target}'
