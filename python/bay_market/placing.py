"""Bids from parking places: price less fall times walk."""
from __future__ import annotations

from array import array
from typing import Any, List, Sequence, Tuple

from ._library import lib
from .lending import lend, lent
from .refusal import Refused
from .where import in_places

Cells = Sequence[Tuple[int, int]]


def place(prices: Any, falls: Any, guests: Cells, stations: Cells) -> array[int]:
    """A bid table, row after row, from each guest's price and fall and the cells of guests and stations.

    >>> place([500, 500], [2, 2], [(3, 4), (0, 0)], [(0, 0), (1, 1)]).tolist()
    [400, 428, 500, 472]
    >>> place([500], [2], [(3, 32)], [(0, 0)])
    Traceback (most recent call last):
    bay_market.refusal.Refused: refused 16: ...: guest 1: its cell is (3, 32)
    """
    wanted = lend('prices', prices), lend('falls', falls)
    cells = [*_coordinates('guests', guests), *_coordinates('stations', stations)]
    bids = array('I', bytes(4 * len(cells[0]) * len(cells[2])))
    answer = lib.place_bids(*lent(*wanted, *cells, bids))
    if answer:
        raise Refused(answer, in_places(answer, *wanted, *cells))
    return bids


def _coordinates(name: str, cells: Cells) -> List[memoryview]:
    """First and second coordinates."""
    pairs = list(cells)
    for number, cell in enumerate(pairs, 1):
        if not hasattr(cell, '__len__') or len(cell) != 2:
            raise ValueError(f'{name}: element {number} is {cell!r:.60}, not a cell of two coordinates')
    return [lend(name, [cell[k] for cell in pairs]) for k in (0, 1)]
