"""An SVG picture: boxes, lines, and texts that fit their place."""
from xml.sax.saxutils import escape

FONT = 'DejaVu Sans, Helvetica, Arial, sans-serif'
# How wide a letter is, of its size: at most so, on average.
LETTER, BOLD_LETTER = 0.62, 0.70
# The least size of letters that can be read.
LEAST_SIZE = 7
# Viewers refuse pictures that are wider or higher than 32,767.
MOST = 32_000
INK, PALE, RULE, RED = '#222222', '#888888', '#dddddd', '#a50f15'


def width_of(words, size=11, weight='normal'):
    return len(words) * size * (BOLD_LETTER if weight == 'bold' else LETTER)


class Svg:
    def __init__(self):
        self.parts = []

    def text(self, x, y, words, size=11, ink=INK, anchor='start', weight='normal', room=None):
        """A text; where it needs more room than it has it is set smaller, and then cut."""
        if room is not None:
            while size > LEAST_SIZE and width_of(words, size, weight) > room:
                size -= 1
            most = int(room / width_of('m', size, weight))
            if len(words) > most:
                words = words[:most - 2] + '..' if most > 4 else words[:max(0, most)]
        self.parts.append(f'<text x="{x:.0f}" y="{y:.0f}" font-size="{size}" fill="{ink}" text-anchor="{anchor}" '
                          f'font-weight="{weight}">{escape(words)}</text>')

    def box(self, x, y, width, height, fill, ink='#666666', title=None, dashes=''):
        inner = f'><title>{escape(title)}</title></rect>' if title else '/>'
        style = f' stroke-dasharray="{dashes}"' if dashes else ''
        self.parts.append(f'<rect x="{x:.0f}" y="{y:.0f}" width="{width:.0f}" height="{height:.0f}" rx="3" '
                          f'fill="{fill}" stroke="{ink}"{style}{inner}')

    def line(self, x, y, to_x, to_y, ink, width=1, dashes=''):
        style = f' stroke-dasharray="{dashes}"' if dashes else ''
        self.parts.append(f'<line x1="{x:.0f}" y1="{y:.0f}" x2="{to_x:.0f}" y2="{to_y:.0f}" stroke="{ink}" '
                          f'stroke-width="{width}"{style}/>')

    def curve(self, points, ink, dashes='', arrow=True):
        """A curve through four points, the two in the middle being those that it bends to."""
        (x, y), *rest = points
        style = f' stroke-dasharray="{dashes}"' if dashes else ''
        head = f' marker-end="url(#{"red" if ink == RED else "arrow"})"' if arrow else ''
        bends = ' '.join(f'{at_x:.0f},{at_y:.0f}' for at_x, at_y in rest)
        self.parts.append(f'<path d="M {x:.0f},{y:.0f} C {bends}" fill="none" stroke="{ink}"{style}{head}/>')

    def whole(self, width, height):
        width, height = round(width), round(height)
        heads = ''.join(f'<marker id="{name}" viewBox="0 0 8 8" refX="8" refY="4" markerWidth="8" markerHeight="8" '
                        f'orient="auto"><path d="M 0,0 L 8,4 L 0,8 z" fill="{ink}"/></marker>'
                        for name, ink in (('arrow', '#444444'), ('red', RED)))
        head = (f'<svg xmlns="http://www.w3.org/2000/svg" width="{width}" height="{height}" '
                f'viewBox="0 0 {width} {height}" font-family="{FONT}">')
        marks = [f'<defs>{heads}</defs>'] if any('marker-end' in part for part in self.parts) else []
        return '\n'.join([head, *marks, f'<rect width="{width}" height="{height}" fill="#ffffff"/>', *self.parts,
                          '</svg>', ''])
