"""Another row of a guest's: what it would have done, the guest's price list, and the gains of many rows."""
from __future__ import annotations

from array import array
from ctypes import byref, c_int64
from typing import Any, List, NamedTuple, Optional, Sequence, Tuple

from . import _c
from ._library import lib
from .clearing import clear, rule_number
from .lending import lend, lent, number, rows as in_rows
from .market import Market
from .refusal import Refused
from .where import in_trial


def guest_number(guest: Any) -> int:
    """A guest as it is lent: what does not fit is lent as 0, which the engine refuses with 24.

    >>> guest_number(3), guest_number(2 ** 32 + 1)
    (3, 0)
    """
    return number(guest, 2 ** 32 - 1, instead=0)


class WhatIf(NamedTuple):
    """The guest's gains by its bids and by the other row, its seats (station and charge) in both rounds, and of each
    other guest 0, 1 where it becomes seated, 2 where it becomes unseated."""
    first_gain: int
    second_gain: int
    changes: List[int]
    first_seat: Tuple[int, int]
    second_seat: Tuple[int, int]


def what_if(market: Market, guest: int, worths: Sequence[int], row: Sequence[int], rule: int = 1) -> WhatIf:
    """What another row of bids would have done for a guest to whom a kWh is worth `worths`.

    >>> market = Market([2, 6], [1, 1], [3, 2], [1, 2], [9, 0, 10, 0])
    >>> what_if(market, 2, worths=[10, 0], row=[14, 0])
    WhatIf(first_gain=0, second_gain=-7, changes=[2, 0], first_seat=(0, 0), second_seat=(1, 27))
    """
    lists = {'worths': lend('worths', worths), 'row': lend('row', row)}
    changes, gains_of = bytearray(market.n), (c_int64(), c_int64())
    answer = getattr(lib, 'try')(rule_number(rule), *market.lent, guest_number(guest), *lent(*lists.values(), changes),
                                 *map(byref, gains_of))
    if answer:
        raise Refused(answer, in_trial(answer, market, rule, guest, lists))
    seats = [clear(held, rule).seats[guest - 1] for held in (market, market.with_row(guest, lists['row']))]
    return WhatIf(gains_of[0].value, gains_of[1].value, list(changes), *seats)


def menu(market: Market, guest: int, rule: int = 1) -> List[Optional[Tuple[int, int]]]:
    """A guest's price list: for each station the least total, bid times amount, that holds a place there, and the
    charge there; None where the station is not open.

    >>> menu(Market([2, 6], [1, 1], [3, 3], [1, 2], [8, 0, 8, 0]), 2)
    [(25, 24), None]
    """
    bars, prices = array('I', bytes(4 * market.m)), array('I', bytes(4 * market.m))
    answer = lib.menu(rule_number(rule), *market.lent, guest_number(guest), *lent(bars, prices))
    if answer:
        raise Refused(answer, in_trial(answer, market, rule, guest, {}))
    return [None if bar == _c.NO_BAR else (bar, price) for bar, price in zip(bars, prices)]


def gains(market: Market, guest: int, worths: Sequence[int], rows: Any, rule: int = 1) -> List[int]:
    """The gain of each of many rows of bids, which stand in rows or row after row.

    >>> market = Market([2, 6], [1, 1], [3, 2], [1, 2], [9, 0, 10, 0])
    >>> gains(market, 2, [10, 0], [[10, 0], [14, 0]])
    [0, -7]
    """
    return gains_array(market, guest, worths, rows, rule).tolist()


def gains_array(market: Market, guest: int, worths: Sequence[int], rows: Any, rule: int = 1) -> array[int]:
    """The same as an array, which is there many times as fast as a list.

    >>> gains_array(Market([2, 6], [1, 1], [3, 2], [1, 2], [9, 0, 10, 0]), 2, [10, 0], [[10, 0], [14, 0]])
    array('q', [0, -7])
    """
    flat, width = in_rows('rows', rows)
    if width not in (0, market.m):
        raise ValueError(f'rows: rows of {width} bids, the market has {market.m} stations')
    lists = {'worths': lend('worths', worths), 'rows': lend('rows', flat)}
    out = array('q', bytes(8 * (len(lists['rows']) // max(1, market.m))))
    answer = lib.gains(rule_number(rule), *market.lent, guest_number(guest), *lent(*lists.values(), out))
    if answer:
        raise Refused(answer, in_trial(answer, market, rule, guest, lists))
    return out
