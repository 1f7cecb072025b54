"""Scripts with a text that each may give, and texts that none may: the change, and the line at which the judge says so.

A change is a list of lines to put in the place of some lines of the text: (first line, how many, lines).
"""

WINDOWS = """\
buffer X 8
timeline A 0
timeline B 5
fence F
queue P threaded
queue Q threaded
submit P
fill X 0 4 0x01020304
signal A 2
end
host wait all A 1
host read A
submit Q
wait A 2
copy X 0 X 4 4
signal B 7
fence F
end
submit P
signal A 4
end
host read A
host poll all A 4 B 7
host fence poll F
host poll any A 5 B 8
host poll all A 2 B 5
host fence wait F
host fence poll F
host read B
host poll any A 4 B 9
host idle
host read A
host poll any A 4 B 9
"""
WINDOWS_TEXT = """\
11 ok
12 value 2
22 value 2
23 timeout
24 not-ready
25 timeout
26 ok
27 ok
28 ok
29 value 7
30 timeout
31 ok
32 value 4
33 ok
buffer X 8
0403020104030201
end
"""
WINDOWS_WRONG = [
    # outside of a window, on either side
    ('a read below what a wait has seen', [(2, 1, ['12 value 0'])], 2),
    ('a read above what is submitted', [(2, 1, ['12 value 4'])], 2),
    ('a read between two values', [(3, 1, ['22 value 3'])], 3),
    ('a read below its floor', [(3, 1, ['22 value 0'])], 3),
    ('a read above its ceiling', [(3, 1, ['22 value 5'])], 3),
    ('a read of the value before a fence', [(10, 1, ['29 value 5'])], 10),
    ('a read after idle of an older value', [(13, 1, ['32 value 2'])], 13),
    ('a poll for more than will ever be', [(6, 1, ['25 ok'])], 6),
    ('a poll for what is reached from the first', [(7, 1, ['26 timeout'])], 7),
    ('a wait that times out', [(1, 1, ['11 timeout'])], 1),
    ('a fence that was waited for', [(9, 1, ['28 not-ready'])], 9),
    ('a fence wait that gives up', [(8, 1, ['27 not-ready'])], 8),
    ('idle that times out', [(12, 1, ['31 timeout'])], 12),
    ('a poll for any after idle', [(14, 1, ['33 timeout'])], 14),
    # after a value that shows it reached
    ('a poll for what a read has shown', [(3, 2, ['22 value 4', '23 ok']), (11, 1, ['30 timeout'])], 11),
    ('a read below what a read has shown', [(3, 1, ['22 value 4']), (11, 3, ['30 ok', '31 ok', '32 value 2'])], 13),
    ('a poll for any after what a poll has shown', [(4, 2, ['23 ok', '24 ok']), (11, 1, ['30 timeout'])], 11),
    # words and numbers
    ('an answer of another kind of step', [(2, 1, ['12 ok'])], 2),
    ('not-ready for a timeline', [(4, 1, ['23 not-ready'])], 4),
    ('timeout for a fence', [(5, 1, ['24 timeout'])], 5),
    ('a hang', [(8, 10, ['27 hang'])], 8),
    ('a zero before a value', [(3, 1, ['22 value 02'])], 3),
    ('two spaces', [(3, 1, ['22  value 2'])], 3),
    ('the number of another line', [(7, 1, ['27 ok'])], 7),
    # lines
    ('an answer is missing', [(4, 1, [])], 4),
    ('the first answer is missing', [(1, 1, [])], 1),
    ('an answer too many', [(5, 0, ['23 timeout'])], 5),
    ('two answers changed about', [(7, 2, ['27 ok', '26 ok'])], 7),
    ('all answers are missing', [(1, 14, [])], 1),
    ('the buffers are missing', [(15, 3, [])], 15),
    ('no end', [(17, 1, [])], 17),
    ('a line behind the end', [(18, 0, ['end'])], 18),
    ('an empty line', [(1, 0, [''])], 1),
    # buffers
    ('one byte', [(16, 1, ['0403020104030200'])], 16),
    ('one digit in capitals', [(16, 1, ['040302010403020A'])], 16),
    ('a byte short', [(16, 1, ['04030201040302'])], 16),
    ('the size of a buffer', [(15, 1, ['buffer X 4'])], 15),
    ('the copy came before the fill', [(16, 1, ['0403020100000000'])], 16),
]

CHOICES = """\
timeline A 0
timeline B 0
timeline C 0
queue P threaded
queue Q threaded
submit P
signal A 1
end
submit P
signal A 2
end
submit Q
signal B 1
end
submit Q
signal B 2
end
host wait any A 2 B 2 C 1
host read A
host read B
host poll any A 1 B 1
host poll all A 1 B 1
host poll any A 2 C 1
host read A
host read B
"""
CHOICES_TEXT = """\
18 ok
19 value 1
20 value 2
21 ok
22 ok
23 timeout
24 value 1
25 value 2
end
"""
CHOICES_WRONG = [
    ('neither pair was reached', [(2, 2, ['19 value 1', '20 value 1'])], 3),
    ('neither pair was reached, and both are at the first value', [(2, 2, ['19 value 0', '20 value 0'])], 3),
    ('a read below what a poll for all has shown',
     [(2, 2, ['19 value 2', '20 value 0']), (6, 3, ['23 ok', '24 value 2', '25 value 0'])], 8),
    ('a poll for any after what both have shown', [(4, 1, ['21 timeout'])], 4),
    ('a poll for all after what both have shown', [(5, 1, ['22 timeout'])], 5),
    ('a pair that nothing signals', [(2, 2, ['19 value 2', '20 value 0']), (6, 1, ['23 timeout'])], 6),
    ('a poll of one pair against a later read', [(6, 2, ['23 ok', '24 value 1'])], 7),
    ('a read falls', [(3, 1, ['20 value 2']), (8, 1, ['25 value 1'])], 8),
]

CASES = [(WINDOWS, WINDOWS_TEXT, WINDOWS_WRONG), (CHOICES, CHOICES_TEXT, CHOICES_WRONG)]

# Texts of the same scripts that may be given too.
OTHERS = [
    (WINDOWS, [(3, 3, ['22 value 4', '23 ok', '24 ok']), (11, 1, ['30 ok'])], WINDOWS_TEXT),
    (WINDOWS, [(3, 1, ['22 value 4']), (11, 1, ['30 ok'])], WINDOWS_TEXT),
    (WINDOWS, [(5, 1, ['24 ok'])], WINDOWS_TEXT),
    (CHOICES, [(2, 2, ['19 value 2', '20 value 0']), (4, 5, ['21 ok', '22 timeout', '23 ok', '24 value 2',
                                                             '25 value 0'])], CHOICES_TEXT),
    (CHOICES, [(2, 1, ['19 value 0']), (5, 1, ['22 timeout']), (6, 2, ['23 timeout', '24 value 0'])], CHOICES_TEXT),
]


def changed(text, changes):
    """A text with some of its lines replaced: the last ones first, so that the numbers of the others stay."""
    lines = text.splitlines(keepends=True)
    for first, count, others in sorted(changes, reverse=True):
        lines[first - 1:first - 1 + count] = [line + '\n' for line in others]
    return ''.join(lines)
