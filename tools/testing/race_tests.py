"""Tests of race, by the second checker alone: the captures are short."""
import subprocess

from running import TOP

NARROW = """\
queue P
queue Q
resource X 8
binary S
submit P # frame 1
write X 0 8 copy # vkCmdCopyBuffer
signal S all
end
submit Q
wait S color
read X 0 8 copy
end
"""
ONE_BATCH = 'queue Q\nresource X 8\nsubmit Q\nwrite X 0 8 copy\nnext\nread X 4 4 compute\nend\n'
HOST = 'queue Q\nresource X 8\nsubmit Q\nwrite X 0 8 copy\nend\nread X 0 8\n'
# With memory: neither mask has the access; the second one lacks it; a transition doesn't have what it writes over.
BLIND = """\
queue Q
resource X 8
submit Q
write X 0 8 copy:write # vkCmdCopyBuffer
barrier copy:read compute:uniform
read X 0 8 compute:sampled
end
"""
HALF = """\
queue P
queue Q
resource X 8
binary S
submit P
write X 0 8 copy:write
signal S all
end
submit Q
wait S color
barrier color:write compute:write
read X 0 8 compute:sampled
end
"""
OVERWRITTEN = 'queue Q\nresource X 8\nsubmit Q\nwrite X 0 8 copy:write\nbarrier copy:read compute X 0 8\nend\n'
TRANSITION = 'queue Q\nresource X 8\nsubmit Q\nbarrier none color:write X 0 8\nread X 0 8 color:attachment\nend\n'
UNJOINED = 'resource X 8\nthread H\nwrite X 0 8\nthread J\nread X 0 8\n'


def race(text, *words):
    return subprocess.run([f'{TOP}/tools/race', *words], input=text.encode(), capture_output=True, check=False,
                          timeout=60)


def test_race(tests):
    for words in (['one', 'other'], ['--vqc', '/no/such/program']):
        done = race('', *words)
        tests.check(f'race {" ".join(words)}', done.returncode == 1 and b'Traceback' not in done.stderr, done)
    tests.check('race, no file', race('', '/no/such/capture').returncode == 3)
    for text, status, wanted, *more in (
            (NARROW, 2, ['race: lines 6 and 11', 'recorded: vkCmdCopyBuffer; its batch: frame 1', 'wait S color+copy',
                         'then: ordered', '9  Q', 'units 0 to 7 of X']),
            (ONE_BATCH, 2, ['race: lines 4 and 6', 'barrier copy compute    (before line 6)', 'then: ordered',
                            'units 4 to 7']),
            (HOST, 2, ['race: lines 4 and 6', 'idle Q    (before line 6)', 'by the host']),
            (UNJOINED, 2, ['race: lines 3 and 5', 'none of the mends']),
            (BLIND, 2, ['unseen: lines 4 and 6', 'recorded: vkCmdCopyBuffer', 'line 5 comes behind line 4, and doesn',
                        'line 5 comes before line 6, and doesn',
                        'let line 5 be barrier copy:read+write compute:uniform+sampled', 'then: ordered',
                        'barrier copy:write compute:sampled    (before line 6)'], '--memory'),
            (HALF, 2, ['unseen: lines 6 and 12', 'line 7 comes behind line 6, and makes', 'wait RACE all',
                       'let line 11 be barrier color:write compute:write+sampled'], '--memory'),
            (OVERWRITTEN, 2, ['unseen: lines 4 and 5', 'let line 5 be barrier copy:read+write compute X 0 8'],
             '--memory'),
            (TRANSITION, 2, ['unseen: lines 4 and 5', 'line 4 wrote is available as it comes',
                             'let line 4 be barrier none color:write+attachment X 0 8'], '--memory'),
            (NARROW, 2, ['race: lines 6 and 11', 'wait S color+copy', 'then: ordered'], '--memory'),
            (BLIND, 0, ['ordered']),
            ('queue Q\nqueue Q\n', 2, ['error: twice: line 2']),
            ('queue Q\n', 0, ['ordered'], '--memory')):
        done = race(text, *more)
        said = done.stdout.decode()
        missing = [part for part in wanted if part not in said]
        tests.check('race', done.returncode == status and not missing, f'{missing} not in {said}{done.stderr.decode()}')
