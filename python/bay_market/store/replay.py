"""A journal fed to the engine again, from an empty book on."""
from __future__ import annotations

from array import array
from ctypes import byref, c_char_p, c_size_t, c_uint8, c_uint16, c_uint32, c_uint64, c_void_p
from functools import partial
from typing import Any, List

from .. import _c
from .._library import unconverted
from ..clearing import rule_number
from ..ledger import Ledger, desk_number, round_number
from ..lending import lent


class Replay:
    """An empty book and the tables into which the engine reads each sheet, all lent once.

    >>> from bay_market import Market
    >>> replay, sheet = Replay(2, 2), Market([2, 6], [1, 1], [3, 3], [1, 2], [8, 0, 8, 0]).to_sheet()
    >>> replay.post(sheet, desk=3, round=1, rule=1), replay.post(sheet, desk=3, round=1, rule=1)
    (0, 11)
    >>> replay.ledger.guests, replay.ledger.stations, replay.ledger.house
    ([24, 0], [(3, 18), (0, 0)], 6)
    """

    def __init__(self, guests: int, stations: int) -> None:
        self._amounts, self._tickets = array('H', bytes(2 * _c.MAX_GUESTS)), array('I', bytes(4 * _c.MAX_GUESTS))
        self._asks, self._bays = array('I', bytes(4 * _c.MAX_STATIONS)), array('H', bytes(2 * _c.MAX_STATIONS))
        self._bids = array('I', bytes(4 * _c.MAX_BIDS))
        self._guests, self._stations = array('Q', bytes(8 * guests)), array('Q', bytes(16 * stations))
        self._house, self._last = c_uint64(), array('I', bytes(4 * _c.MAX_DESKS))
        self._wrap_reading()
        self._wrap_posting()

    def _wrap_reading(self) -> None:
        self._sheet, self._length, self._n, self._m = c_char_p(), c_size_t(), c_uint16(), c_uint16()
        self._read = partial(unconverted('read'), self._sheet, self._length,
                             *_wrapped(self._amounts, self._tickets, self._asks, self._bays, self._bids),
                             byref(self._n), byref(self._m))

    def _wrap_posting(self) -> None:
        self._rule, self._desk, self._round = c_uint8(), c_uint8(), c_uint32()
        self._rows, self._width, self._cells = c_size_t(), c_size_t(), c_size_t()
        asks, bays, amounts, tickets, bids = _wrapped(self._asks, self._bays, self._amounts, self._tickets,
                                                      self._bids)[::2]
        guests, accounts, last = (_wrapped(one) for one in (self._guests, self._stations, self._last))
        accounts[1] = c_size_t(len(self._stations) // 2)
        self._post = partial(unconverted('post'), self._rule, asks, self._width, bays, self._width, amounts, self._rows,
                             tickets, self._rows, bids, self._cells, self._width, self._desk, self._round, *guests,
                             *accounts, byref(self._house), *last)

    def post(self, sheet: bytes, desk: int, round: int, rule: int) -> int:
        """The engine's answer to a sheet: 0 where it is posted.

        >>> Replay(2, 2).post(b'', 0, 1, 1)
        1
        """
        self._sheet.value, self._length.value = sheet, len(sheet)
        answer: int = self._read()
        if answer:
            return answer
        n, m = self._n.value, self._m.value
        self._rows.value, self._width.value, self._cells.value = n, m, n * m
        self._rule.value, self._desk.value = rule_number(rule), desk_number(desk)
        self._round.value = round_number(round)
        answer = self._post()
        return answer

    @property
    def ledger(self) -> Ledger:
        """The book as it is now.

        >>> Replay(2, 1).ledger
        <Ledger of 2 guests and 1 stations>
        """
        sales = list(zip(self._stations[::2], self._stations[1::2]))
        return Ledger.of(self._guests, sales, self._house.value, self._last)


def _wrapped(*lists: Any) -> List[Any]:
    """Pointer and length of each list, as ctypes hands them on."""
    return [kind(value) for kind, value in zip((c_void_p, c_size_t) * len(lists), lent(*lists))]
