"""What is printed: lines, tables and JSON on standard output, and the line for people on standard error.

Words of the command line are held as the UTF-8 of their bytes, with what is no UTF-8 escaped, and both outputs write
them so: a file's name goes out as it came, in any locale."""
from __future__ import annotations

import sys
from typing import Any, Iterable, List, Optional, Sequence, Union

Cell = Union[int, str, None]


class Failed(Exception):
    """Exit status 2 (wrong use, no such file) or 3 (input or output failed), with a line for standard error."""

    def __init__(self, status: int, message: str) -> None:
        super().__init__(message)
        self.status = status


def err(message: str) -> None:
    """A line on standard error; where that is closed or full there is nobody to tell."""
    try:
        if sys.stderr is not None:
            sys.stderr.write(f'bay: {message}\n')
            sys.stderr.flush()
    except (OSError, ValueError):
        pass


def out(text: str) -> None:
    """Text on standard output.

    >>> out('cut 6\\n')
    cut 6
    """
    if sys.stdout is None:
        raise Failed(3, 'cannot write standard output: it is closed')
    sys.stdout.write(text)


def lines(rows: Iterable[str]) -> None:
    """Lines on standard output.

    >>> lines(['cut 6', 'margin 0'])
    cut 6
    margin 0
    """
    out(''.join(row + '\n' for row in rows))


def as_json(value: Any) -> None:
    """One object on one line.

    >>> as_json({'cut': 6})
    {"cut": 6}
    """
    import json
    out(json.dumps(value) + '\n')


def shown(cell: Cell) -> str:
    """A cell of a table: thousands parted, None as a dash.

    >>> shown(12000), shown(None), shown('open')
    ('12,000', '-', 'open')
    """
    return '-' if cell is None else f'{cell:,}' if isinstance(cell, int) else cell


def table(heads: Sequence[str], rows: Iterable[Sequence[Cell]], left: Sequence[str] = ()) -> None:
    """Columns under their heads, to the right but for those named in `left`.

    >>> table(('station', 'ask', 'state'), [(1, 1200, 'open'), (2, None, 'not open')], left=['state'])
    station    ask  state
          1  1,200  open
          2      -  not open
    """
    cells: List[List[str]] = [list(heads), *([shown(cell) for cell in row] for row in rows)]
    wide = [max(map(len, column)) for column in zip(*cells)]
    for row in cells:
        parts = (cell.ljust(room) if head in left else cell.rjust(room) for cell, room, head in zip(row, wide, heads))
        out('  '.join(parts).rstrip() + '\n')


def listed(words: Sequence[str], none: Optional[str] = None) -> str:
    """Words as a sentence lists them.

    >>> listed(['tabs', 'quotes', 'words']), listed(['tabs']), listed([], 'nobody')
    ('tabs, quotes and words', 'tabs', 'nobody')
    """
    if not words:
        return none or ''
    return ' and '.join(filter(None, (', '.join(words[:-1]), words[-1])))
