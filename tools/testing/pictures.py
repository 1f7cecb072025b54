"""Pictures under test: they are read, and rendered where a renderer is there."""
import shutil
import subprocess
import xml.etree.ElementTree as Tree

MOST = 32_767
SPACE = '{http://www.w3.org/2000/svg}'
RENDERER = shutil.which('rsvg-convert')


class Picture:
    """An SVG picture: its size and its texts, with where they stand."""

    def __init__(self, data):
        self.data = data
        root = Tree.fromstring(data)
        self.width, self.height = int(root.get('width')), int(root.get('height'))
        self.texts = [(text.text or '', float(text.get('x')), float(text.get('y')), float(text.get('font-size')),
                       text.get('text-anchor'), text.get('font-weight')) for text in root.iter(f'{SPACE}text')]
        # The first one is the ground.
        _, *boxes = root.iter(f'{SPACE}rect')
        self.boxes = [tuple(float(box.get(name)) for name in ('x', 'y', 'width', 'height')) for box in boxes]

    def words(self):
        return [words for words, *_ in self.texts]

    def spills(self):
        """The texts that begin in a box and are wider than it."""
        found = []
        for words, x, y, size, anchor, weight in self.texts:
            wide = len(words) * size * (0.70 if weight == 'bold' else 0.62)
            left = x - wide / 2 if anchor == 'middle' else x - wide if anchor == 'end' else x
            for at, top, width, height in self.boxes:
                is_in = at <= x <= at + width and top < y <= top + height
                if is_in and (left < at - 1 or left + wide > at + width + 1):
                    found.append(words)
        return found

    def is_rendered(self):
        if not RENDERER:
            return True
        done = subprocess.run([RENDERER], input=self.data, capture_output=True, check=False)
        return done.returncode == 0 and done.stdout.startswith(b'\x89PNG')


def picture(tests, what, data, wanted):
    """Tests a picture: its size, its texts, and that these fit."""
    try:
        found = Picture(data)
    except Tree.ParseError as fault:
        tests.check(what, False, f'{fault}: {data[:200]!r}')
        return
    words = found.words()
    missing = [text for text in wanted if text not in words]
    tests.check(f'{what}: texts', not missing, missing)
    tests.check(f'{what}: size', found.width <= MOST and found.height <= MOST, (found.width, found.height))
    tests.check(f'{what}: texts fit', not found.spills(), found.spills())
    tests.check(f'{what}: rendered', found.is_rendered())
