"""Rows of bids for a search, made by the block at a few nanoseconds a bid, with nothing but Python.

A block has, for each station, a column of 256 bids, and for each row and station a byte that picks one of them. All
random bytes are SHAKE-128 of seed and block, so that a seed gives the same rows with any number of processes, on any
machine and by any Python. The picks of a block are one stream, which each station reads from another place, so that a
row takes one new byte of it."""
from __future__ import annotations

from array import array
from hashlib import shake_128
from struct import unpack
from typing import List, NamedTuple, Sequence

from ._c import MAX_PRICE

COLUMN = 256
APART = 61              # bytes of the stream between the places of two stations
KINDS = ('anywhere', 'near the truth', 'at the prices')     # of rows: those of block 0, 1, 2, 0 and so on


class Station(NamedTuple):
    """What matters to a guest at a station: what a kWh is worth to it there, and the marks: the cut, the least bid that
    gets a place and the price per kWh, rounded down."""
    worth: int
    marks: Sequence[int]


def beside(marks: Sequence[int]) -> List[int]:
    """The bids at the marks and one beside.

    >>> beside([0, 5])
    [0, 1, 4, 5, 6]
    """
    return sorted({bid for mark in marks for bid in (mark - 1, mark, mark + 1) if 0 <= bid <= MAX_PRICE})


def repeated(bids: Sequence[int], count: int) -> List[int]:
    """So many bids, in turn.

    >>> repeated([1, 2, 3], 5)
    [1, 2, 3, 1, 2]
    """
    return [bids[k % len(bids)] for k in range(count)]


def column(kind: str, station: Station, numbers: Sequence[int]) -> List[int]:
    """The bids of a station in a block: a quarter none and the rest anywhere; or three quarters the truth and the rest
    within an eighth of it, none or twice; or a quarter none, a quarter the truth, and the rest at the marks and one
    beside. `numbers` are random.

    >>> sorted(set(column('at the prices', Station(8, [6]), range(256))))
    [0, 5, 6, 7, 8]
    >>> sorted(set(column('near the truth', Station(8, [6]), range(256))))
    [0, 5, 6, 7, 8, 9, 10, 11, 16]
    """
    worth, quarter = station.worth, COLUMN // 4
    if kind == 'anywhere':
        top = min(MAX_PRICE, 2 * max(worth, *station.marks, 5))
        return [0] * quarter + [number % (top + 1) for number in numbers[quarter:]]
    if kind == 'near the truth':
        wide = 2 + worth // 8
        near = [min(MAX_PRICE, max(0, worth - wide + number % (2 * wide + 1))) for number in numbers[:quarter]]
        near[0], near[1] = 0, min(MAX_PRICE, 2 * worth)
        return [worth] * (3 * quarter) + [bid if worth else 0 for bid in near]
    return [0] * quarter + [worth] * quarter + repeated(beside(station.marks), 2 * quarter)


def block(picks: bytes, columns: Sequence[Sequence[int]]) -> array[int]:
    """Rows of bids, row after row: a byte of the picks for each row, and at the end as many as the last station reads
    beyond the first.

    >>> block(bytes([0, 1] + [0] * 59 + [1, 0]), [[5] + [70000] * 255, [0] + [9] * 255]).tolist()
    [5, 9, 70000, 0]
    """
    m, rows = len(columns), len(picks) - APART * (len(columns) - 1)
    out = bytearray(4 * m * rows)
    for station, bids in enumerate(columns):
        mine, held = picks[APART * station:APART * station + rows], array('I', bids).tobytes()
        for k in range(4):
            plane = held[k::4]                      # byte k of each of the 256
            if any(plane):
                out[4 * station + k::4 * m] = mine.translate(plane)
    made = array('I')
    made.frombytes(out)
    return made


def rows_of(seed: str, number: int, stations: Sequence[Station], rows: int) -> array[int]:
    """A block of rows.

    >>> stations = [Station(8, [6]), Station(0, [6])]
    >>> len(rows_of('1', 0, stations, 100)), rows_of('1', 0, stations, 100) == rows_of('1', 3, stations, 100)
    (200, False)
    >>> rows_of('1', 2, stations, 3).tolist()
    [7, 7, 0, 0, 8, 5]
    """
    m = len(stations)
    drawn = 4 * COLUMN * m
    stream = shake_128(f'{number} {seed}'.encode('utf-8', 'surrogateescape')).digest(drawn + rows + APART * (m - 1))
    numbers = unpack(f'<{m * COLUMN}I', stream[:drawn])
    kind = KINDS[number % len(KINDS)]
    columns = [column(kind, station, numbers[k * COLUMN:(k + 1) * COLUMN]) for k, station in enumerate(stations)]
    return block(stream[drawn:], columns)
