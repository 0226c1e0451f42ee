"""Shapes and text of an SVG picture."""
from __future__ import annotations

from typing import List

INK, SOFT, RULE, PAPER, WHITE = '#16181a', '#5b5a55', '#d9d5ca', '#fdfcf8', '#fff'
FONT = "'DejaVu Sans', Verdana, 'Segoe UI', sans-serif"
WIDTHS = {sign: width for width, signs in ((0.29, "ijlI'|"), (0.32, ' .,:;'), (0.4, 'frt()-/'), (0.9, 'mMwW@'))
          for sign in signs}


def esc(text: str) -> str:
    """Text as it may stand in XML.

    >>> esc('A & B <1>')
    'A &amp; B &lt;1&gt;'
    """
    clean = ''.join(sign if sign >= ' ' and not '\ud800' <= sign <= '\udfff' and sign not in '\ufffe\uffff' else '?'
                    for sign in text)
    return clean.replace('&', '&amp;').replace('<', '&lt;').replace('>', '&gt;').replace('"', '&quot;')


def wide(text: str, size: float, bold: bool = False) -> float:
    """The width of a text, near enough: no font is asked.

    >>> round(wide('cut 310', 12))
    46
    """
    return size * sum(WIDTHS.get(sign, 0.63) for sign in text) * (1.12 if bold else 1)


def wrapped(text: str, size: float, room: float) -> List[str]:
    """A text in lines that fit a room, broken between words.

    >>> wrapped('place held, sits at station 1', 12, 120)
    ['place held, sits at', 'station 1']
    """
    lines = ['']
    for word in text.split(' '):
        longer = f'{lines[-1]} {word}' if lines[-1] else word
        if lines[-1] and wide(longer, size) > room:
            lines.append(word)
        else:
            lines[-1] = longer
    return lines


class Canvas:
    """What is drawn, in order."""

    def __init__(self) -> None:
        self.out: List[str] = []

    def text(self, x: float, y: float, text: str, size: float = 12, fill: str = INK, bold: bool = False,
             anchor: str = 'start') -> None:
        """A line of text, its start, middle or end at x.

        >>> canvas = Canvas()
        >>> canvas.text(24, 34, 'cut 310', bold=True)
        >>> canvas.out
        ['<text x="24.0" y="34.0" font-size="12" fill="#16181a" font-weight="700">cut 310</text>']
        """
        more = ' font-weight="700"' if bold else ''
        more += f' text-anchor="{anchor}"' if anchor != 'start' else ''
        self.out.append(f'<text x="{x:.1f}" y="{y:.1f}" font-size="{size:g}" fill="{fill}"{more}>{esc(text)}</text>')

    def rect(self, x: float, y: float, width: float, height: float, fill: str, stroke: str = '', line: float = 1,
             dash: str = '', title: str = '') -> None:
        """A rectangle, its edge inside it.

        >>> canvas = Canvas()
        >>> canvas.rect(0, 0, 30, 11, WHITE, title='guest 1')
        >>> canvas.out
        ['<rect x="0.0" y="0.0" width="30.0" height="11.0" fill="#fff"><title>guest 1</title></rect>']
        """
        edge = f' stroke="{stroke}" stroke-width="{line:g}"' if stroke else ''
        edge += f' stroke-dasharray="{dash}"' if dash else ''
        if stroke:
            x, y, width, height = x + line / 2, y + line / 2, max(0.1, width - line), max(0.1, height - line)
        self.out.append(f'<rect x="{x:.1f}" y="{y:.1f}" width="{width:.1f}" height="{height:.1f}" fill="{fill}"{edge}'
                        + (f'><title>{esc(title)}</title></rect>' if title else '/>'))

    def line(self, x1: float, y1: float, x2: float, y2: float, stroke: str = INK, width: float = 1,
             dash: str = '') -> None:
        """A straight line.

        >>> canvas = Canvas()
        >>> canvas.line(0, 5, 30, 5)
        >>> canvas.out
        ['<line x1="0.0" y1="5.0" x2="30.0" y2="5.0" stroke="#16181a" stroke-width="1"/>']
        """
        more = f' stroke-dasharray="{dash}"' if dash else ''
        self.out.append(f'<line x1="{x1:.1f}" y1="{y1:.1f}" x2="{x2:.1f}" y2="{y2:.1f}" stroke="{stroke}" '
                        f'stroke-width="{width:g}"{more}/>')

    def disc(self, x: float, y: float, radius: float, text: str, fill: str, edge: str, ink: str, bold: bool) -> None:
        """A disc with a number in it.

        >>> canvas = Canvas()
        >>> canvas.disc(20, 20, 9, '3', PAPER, INK, INK, bold=False)
        >>> [part.split()[0] for part in canvas.out]
        ['<circle', '<text']
        """
        self.out.append(f'<circle cx="{x:.1f}" cy="{y:.1f}" r="{radius:g}" fill="{fill}" stroke="{edge}" '
                        'stroke-width="1.5"/>')
        self.text(x, y + radius * 0.36, text, radius + 0.2, ink, bold, 'middle')
