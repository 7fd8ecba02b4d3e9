"""A sheet of SVG: lines, shapes and text, in black on white, told apart by hatching, dots and labels and not by colour alone."""

import textwrap
from xml.sax.saxutils import escape

WIDE, BOLD = 0.62, 0.7  # a letter's width by its size, taken a little large

STYLE = '''
.mp text { font-family: "DejaVu Sans", Verdana, Arial, sans-serif; font-size: 12px; fill: #000; }
.mp .head { font-size: 18px; font-weight: bold; }
.mp .small { font-size: 11px; }
.mp .faint { fill: #595959; font-style: italic; }
.mp .strong { font-weight: bold; }
.mp .mono { font-family: "DejaVu Sans Mono", Consolas, monospace; font-size: 12px; }
.mp .wire { stroke: #000; stroke-width: 1.4; fill: none; }
.mp .box { stroke: #000; stroke-width: 1.2; fill: #fff; }
.mp .thick { stroke: #000; stroke-width: 2.6; fill: #fff; }
.mp .thin { stroke: #595959; stroke-width: 0.8; fill: none; }
.mp .dash { stroke: #000; stroke-width: 1.4; fill: none; stroke-dasharray: 6 4; }
.mp .arrow { stroke: #000; stroke-width: 2; fill: none; }
.mp .ground { fill: #fff; stroke: none; }
.mp .solid { fill: #000; stroke: none; }
.mp .dark { fill: #4d4d4d; stroke: #000; stroke-width: 0.8; }
.mp .white { fill: #fff; stroke: #000; stroke-width: 0.8; }
.mp .hatched { fill: url(#mp-hatch); stroke: #000; stroke-width: 0.8; }
.mp .dotted { fill: url(#mp-dots); stroke: #000; stroke-width: 0.8; }
'''

PATTERNS = '''<defs>
<pattern id="mp-hatch" width="6" height="6" patternUnits="userSpaceOnUse" patternTransform="rotate(45)">
<rect width="6" height="6" fill="#fbe3d3"/><line x1="0" y1="0" x2="0" y2="6" stroke="#b34700" stroke-width="1.6"/></pattern>
<pattern id="mp-dots" width="7" height="7" patternUnits="userSpaceOnUse">
<rect width="7" height="7" fill="#dbeaf5"/><circle cx="2" cy="2" r="1.2" fill="#00507d"/></pattern>
</defs>'''


class Sheet:
    """Elements in the order in which they are drawn. The height is what is asked for at the end."""

    def __init__(self, width):
        self.width, self.parts = width, []

    def shape(self, kind, name, **places):
        self.parts.append(f'<{kind} class="{name}" ' + ' '.join(f'{key}="{number(value)}"' for key, value in places.items()) + '/>')

    def line(self, name, x1, y1, x2, y2):
        self.shape('line', name, x1=x1, y1=y1, x2=x2, y2=y2)

    def rect(self, name, x, y, width, height):
        self.shape('rect', name, x=x, y=y, width=width, height=height)

    def path(self, name, points, closed=False):
        self.parts.append(f'<path class="{name}" d="M{" L".join(f"{number(x)} {number(y)}" for x, y in points)}{" Z" if closed else ""}"/>')

    def text(self, name, x, y, words, anchor='start'):
        self.parts.append(f'<text class="{name}" x="{number(x)}" y="{number(y)}" text-anchor="{anchor}">{escape(words)}</text>')

    def centred(self, name, x, y, words, size=12, wide=WIDE):
        """Text about a place, moved so that none of it leaves the sheet. On a ground of its own, so that no line runs through it."""
        half = len(words) * size * wide / 2 + 4
        x = min(max(x, half + 4), self.width - half - 4)
        self.rect('ground', x - half, y - size, 2 * half, size + 5)
        self.text(name, x, y, words, 'middle')

    def lines(self, name, x, y, words, size=12, spread=1.4):
        """Text in as many lines as it needs; where the next one goes."""
        most = max(20, int((self.width - x - 16) / (size * WIDE)))
        indent = len(words) - len(words.lstrip(' '))
        for i, some in enumerate(textwrap.wrap(words, most - indent, drop_whitespace=True) or ['']):
            self.text(name, x + (indent + (2 if i else 0)) * size * WIDE, y, some.strip())
            y += size * spread
        return y

    def svg(self, title, height, inline=False):
        """The whole; inline: as a part of a page of HTML."""
        first, space = ('', '') if inline else ('<?xml version="1.0" encoding="UTF-8"?>\n', ' xmlns="http://www.w3.org/2000/svg"')
        size = number(self.width), number(height)
        head = f'<svg{space} class="mp" role="img" width="{size[0]}" height="{size[1]}" viewBox="0 0 {size[0]} {size[1]}">'
        ground = '<rect width="100%" height="100%" fill="#fff"/>'
        return first + '\n'.join([head, f'<title>{escape(title)}</title>', f'<style>{STYLE}</style>', PATTERNS, ground, *self.parts, '</svg>', ''])


def stacked(sheets):
    """Sheets of these heights, one below the other, as one."""
    whole, y = Sheet(max(sheet.width for sheet, _ in sheets)), 0
    for sheet, height in sheets:
        whole.parts += [f'<g transform="translate(0 {number(y)})">', *sheet.parts, '</g>']
        y += height
    return whole, y


def number(value):
    return value if isinstance(value, str) else f'{value:.2f}'.rstrip('0').rstrip('.')
