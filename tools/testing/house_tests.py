"""Tests of house: its words, and that this repository keeps its limits."""


def test_house(tests):
    tests.helps('house')
    for words in (['--twin'], ['one']):
        tests.misused('house', *words)
    done = tests.tool('house', '--check', program=False)
    tests.check('house --check', done.returncode == 0 and not done.stderr, done.stdout.decode() + done.stderr.decode())
    done = tests.tool('house', '--twins', program=False)
    tests.check('house --twins', done.returncode == 0 and not done.stderr, done.stderr)


def test_headline(tests):
    tests.helps('headline')
    tests.misused('headline', '--under', 'nothing')
    done = tests.tool('headline', '--check', '--under', 'replay', program=False)
    said = done.stdout.decode()
    tests.check('headline --check', done.returncode == 0 and not done.stderr, said + done.stderr.decode())
    tests.check('headline --under', 'vq_model: Machine.CanFinish, ' in said and 'HistoryLaws.PointLaw, ' in said
                and ', kept\n' in said and 'ProgressRuns' not in said, said)
