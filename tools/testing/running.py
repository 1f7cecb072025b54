"""Runs the tools for their tests, and counts what is not as it should be."""
import os
import subprocess
import sys

TOP = os.path.dirname(os.path.dirname(os.path.dirname(os.path.abspath(__file__))))


class Tests:
    """What failed so far, and the program that the tools are run on."""

    def __init__(self, program, folder):
        self.program, self.folder, self.failed = program, folder, 0

    def tool(self, name, *words, data=b'', program=True, **options):
        """Runs a tool: on this program unless that is left out."""
        named = ['--vq', self.program] if program else []
        return subprocess.run([os.path.join(TOP, 'tools', name), *named, *words], input=data, capture_output=True,
                              check=False, timeout=120, **options)

    def tool_to(self, file, name, *words):
        """The status of a tool that writes to a file."""
        return subprocess.run([os.path.join(TOP, 'tools', name), '--vq', self.program, *words], stdout=file,
                              stderr=subprocess.DEVNULL, check=False).returncode

    def vq(self, data, *words):
        return subprocess.run([self.program, *words], input=data, capture_output=True, check=False).stdout

    def write(self, name, text):
        """A file in the folder of the tests."""
        path = os.path.join(self.folder, name)
        with open(path, 'wb') as file:
            file.write(text if isinstance(text, bytes) else text.encode())
        return path

    def check(self, what, holds, found=''):
        if not holds:
            self.failed += 1
            print(f'{what}: FAILED\n{found}', file=sys.stderr)

    def misused(self, name, *words, status=1, program=False):
        """A misuse has this status, one line that says why, a usage line with status 1, and no traceback."""
        done = self.tool(name, *words, program=program)
        said = done.stderr.decode()
        holds = (done.returncode == status and said.startswith(f'{name}: ') and 'Traceback' not in said
                 and ('usage: ' in said or status != 1) and not done.stdout)
        self.check(f'{name} {" ".join(words)}', holds, f'status {done.returncode}, {done.stdout}, {said}')

    def keeps_its_temper(self, name, *words):
        """Streams that are closed or full are told of in a line, or by the status alone."""
        command = f'"$0" {" ".join(words)}'
        path = os.path.join(TOP, 'tools', name)
        for streams, statuses in (('<&-', (3,)), ('</dev/null >&-', (2, 4)), ('>/dev/full', (2, 4)),
                                  ('| true', (0, 2, 4)), ('--help >/dev/full', (0, 4))):
            data = b'' if '<' in streams else b'buffer X 4\n'
            done = subprocess.run(['bash', '-c', f'{command} {streams}; exit ${{PIPESTATUS[0]}}', path], input=data,
                                  capture_output=True, check=False)
            holds = done.returncode in statuses and b'Traceback' not in done.stderr and done.stderr.count(b'\n') <= 1
            self.check(f'{name} {streams}', holds, done)

    def helps(self, name):
        for word, wanted in (('--help', f'usage: {name} '), ('-h', f'usage: {name} '), ('--version', f'{name} 1.')):
            done = self.tool(name, word, program=False)
            said = done.stdout.decode()
            self.check(f'{name} {word}', done.returncode == 0 and said.startswith(wanted) and not done.stderr, said)
