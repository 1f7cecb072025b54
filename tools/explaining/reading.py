"""How a text is read: as a script, with a schedule, with thread blocks or with a trace; by the word of vq for it."""
import re

from blocks import Hosts
from judging import cut
from quick import QuickBlockReader, QuickReader
from reference import Script

TRACE = re.compile(rb'^[ \t]*trace[ \t]*(#[^\n]*)?\r?$', re.MULTILINE)
SCHEDULE = re.compile(rb'^[ \t]*schedule[ \t]*(#[^\n]*)?\r?$', re.MULTILINE)
THREAD = re.compile(rb'^[ \t]*thread(?=[ \t#]|\r?$)', re.MULTILINE)


def word_of(data):
    """The word with which vq is asked of a text."""
    if b'trace' in data and TRACE.search(data):
        return '--audit'
    if b'schedule' in data and SCHEDULE.search(data):
        return '--replay'
    return '--hosts' if THREAD.search(data) else '--check'


def script_part(data, word):
    """What of a text is a script: all, or what stands before its trace."""
    parts = cut(data) if word == '--audit' else None
    return parts[0] if parts else data


def reader_of(word):
    return QuickBlockReader() if word == '--hosts' else QuickReader(word == '--replay')


def read_whole(data, word):
    """A reader that has read a faultless text. Threads are queues then, and their lines batches, where they stand."""
    reader = reader_of(word)
    reader.read_all(script_part(data, word))
    if word == '--hosts':
        reader.lower_threads()
    return reader


def script_of(data, word):
    """A lawful script; raises the Refusal of another one."""
    return Hosts(data) if word == '--hosts' else Script(script_part(data, word), word == '--replay')
