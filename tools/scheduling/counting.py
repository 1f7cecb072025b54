"""What the replays of many schedules end with."""
import subprocess

from command import REFUSED, Failure

# So many lines of a text are shown.
MOST_LINES = 12


class Counted:
    """The different texts behind `finished`, each with how often it came and the first seed that gave it."""

    def __init__(self, program):
        self.program, self.found, self.played = program, {}, 0

    def play(self, seed, script):
        done = subprocess.run([self.program, '--replay'], input=script, capture_output=True, check=False)
        trace, end, text = done.stdout.partition(b'\nfinished\n')
        if done.returncode or not end:
            raise Failure(REFUSED, f'the replay of seed {seed} ended with status {done.returncode} and no `finished`')
        self.played += 1
        count, first = self.found.get(text, (0, seed))
        self.found[text] = count + 1, first

    def text(self):
        """The different texts, the most frequent one first: their answers, or their buffers where there are none."""
        rows = [f'{self.played} schedules, {len(self.found)} different text{"s" * (len(self.found) != 1)}']
        for text, (count, first) in sorted(self.found.items(), key=lambda each: (-each[1][0], each[1][1])):
            rows.append(f'{count} times, first with --seed {first}:')
            lines = text.decode().split('\n')[:-1]
            answers = [line for line in lines if line[:1].isdigit() and ' ' in line] or lines
            rows += [f'  {line}' for line in answers[:MOST_LINES]]
            rows += [f'  and {len(answers) - MOST_LINES} lines more'] * (len(answers) > MOST_LINES)
        return '\n'.join(rows) + '\n'
