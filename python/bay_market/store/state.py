"""The one row of a book: accounts, last rounds, the count of its entries and the sum over them."""
from __future__ import annotations

import json
from typing import Any, List, NamedTuple

from .. import _c
from ..ledger import Ledger
from .errors import BookError
from .journal import first_sum, now
from .store import Row


KEPT = slice(2, -1)             # of the row: what postings change


class State(NamedTuple):
    """What a book holds beside its journal."""
    ledger: Ledger
    entries: int
    sum: bytes
    refusals: int
    guests: int
    stations: int
    made: str

    def row(self) -> Row:
        """The row as it is read.

        >>> empty(2, 1).row()[:7]
        (2, 1, '[0,0]', '[0]', '[0]', 0, '[0,0,0,0,0,0,0,0]')
        """
        ledger = self.ledger
        sales = ledger.stations
        return (self.guests, self.stations, _json(ledger.guests), _json([sold for sold, _ in sales]),
                _json([paid for _, paid in sales]), ledger.house, _json(ledger.last), self.entries, self.sum,
                self.refusals, self.made)


def empty(guests: int, stations: int) -> State:
    """A book with no postings.

    >>> empty(2, 1).ledger
    <Ledger of 2 guests and 1 stations>
    """
    return State(Ledger(guests, stations), 0, first_sum(guests, stations), 0, guests, stations, now())


def read(row: Row, name: str) -> State:
    """The row as it was read; what is no such row is a damaged book.

    >>> held = empty(2, 1)
    >>> read(held.row(), 'park.db') == held
    True
    >>> read((2, 1, '[0,0', *held.row()[3:]), 'park.db')
    Traceback (most recent call last):
    bay_market.store.errors.BookError: park.db is damaged: its accounts cannot be read; restore it from a copy
    """
    guests, stations, charged, sold, paid, house, last, entries, total, refusals, made = row
    try:
        lists = [_numbers(text) for text in (charged, sold, paid, last)]
        ledger = Ledger.of(lists[0], list(zip(lists[1], lists[2])), house, lists[3])
        fits = [len(one) for one in lists] == [guests, stations, stations, _c.MAX_DESKS]
        if not fits or not all(isinstance(count, int) and count >= 0 for count in (entries, refusals)):
            raise ValueError('of another size')
        return State(ledger, entries, bytes(total), refusals, guests, stations, str(made))
    except (ValueError, TypeError, OverflowError, RecursionError):
        raise BookError(f'{name} is damaged: its accounts cannot be read; restore it from a copy') from None


def _numbers(text: Any) -> List[int]:
    found = json.loads(text)
    if not isinstance(found, list):
        raise ValueError('no list')
    return found


def _json(values: List[int]) -> str:
    return str(values).replace(' ', '')
