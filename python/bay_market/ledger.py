"""A book in memory: accounts of guests, stations and house, and the last round of each of eight desks."""
from __future__ import annotations

from array import array
from ctypes import byref, c_uint64
from typing import Any, List, Sequence, Tuple

from . import _c
from ._library import lib
from .clearing import Clearing, clear, rule_number
from .lending import lend, lent, number, rows
from .market import Market
from .refusal import Refused, Where
from .where import in_round


def desk_number(desk: Any) -> int:
    """A desk as it is lent: what is no byte is lent as 255, which the engine refuses with 25.

    >>> desk_number(7), desk_number(256)
    (7, 255)
    """
    return number(desk, 255, instead=255)


def round_number(round: Any) -> int:
    """A round as it is lent: what does not fit is lent as 0, which the engine refuses with 11.

    >>> round_number(18), round_number(2 ** 32 + 1)
    (18, 0)
    """
    return number(round, _c.MAX_ROUND, instead=0)


class Ledger:
    """A book. A posting clears the market itself, in a truthful round.

    >>> case_e = Market([2, 6], [1, 1], [3, 3], [1, 2], [8, 0, 8, 0])
    >>> book = Ledger(200, 40)
    >>> book.post(case_e, 1, desk=0); book.post(case_e, 1, desk=3)
    >>> book.guests[0], book.stations[0], book.house, book.last
    (48, (6, 36), 12, [1, 0, 0, 1, 0, 0, 0, 0])
    """

    def __init__(self, guests: int = _c.MAX_GUESTS, stations: int = _c.MAX_STATIONS) -> None:
        self._guests, self._stations = array('Q', bytes(8 * guests)), array('Q', bytes(16 * stations))
        self._house, self._last = c_uint64(), array('I', bytes(4 * _c.MAX_DESKS))

    @classmethod
    def of(cls, guests: Sequence[int], stations: Sequence[Tuple[int, int]], house: int, last: Sequence[int]) -> Ledger:
        """A book with these accounts.

        >>> Ledger.of([24, 0], [(3, 18)], 6, [1, 0, 0, 0, 0, 0, 0, 0]).house
        6
        """
        book = cls(0, 0)
        book._guests = array('Q', lend('guests', guests, 'Q'))
        book._stations = array('Q', lend('stations', rows('stations', stations)[0], 'Q'))
        book._house = c_uint64(lend('house', [house], 'Q')[0])
        book._last = array('I', lend('last', last))
        return book

    def post(self, market: Market, round: int, desk: int = 0, rule: int = 1) -> None:
        """Posts a round of a desk, 0 to 7, or raises Refused and leaves the book as it was.

        >>> book, market = Ledger(), Market([2, 6], [1, 1], [3, 3], [1, 2], [8, 0, 8, 0])
        >>> book.post(market, 2, desk=3)
        Traceback (most recent call last):
        bay_market.refusal.Refused: refused 11: ...: desk 3: its last round is 0, so round 1 is next
        """
        guests, last = lent(self._guests), lent(self._last)
        stations = [lent(self._stations)[0], len(self._stations) // 2]
        answer = lib.post(rule_number(rule), *market.lent, desk_number(desk), round_number(round), *guests, *stations,
                          byref(self._house), *last)
        if answer:
            raise Refused(answer, self._where(answer, market, desk, rule))

    def _where(self, answer: int, market: Market, desk: int, rule: int) -> Where:
        if answer == 11:
            last = self._last[desk]
            after = f'so round {last + 1} is next' if last < _c.MAX_ROUND else 'and no round is left'
            return Where(f'its last round is {last}, {after}', desk=desk)
        if answer == 12:
            return self._over(clear(market, rule))
        if answer == 13:
            return Where(f'the book has {len(self._guests)} guests, {len(self._stations) // 2} stations and '
                         f'{len(self._last)} desks, the market {market.n} guests and {market.m} stations')
        if answer == 25:
            return Where(f'desks are 0 to {_c.MAX_DESKS - 1}', desk=desk)
        return in_round(answer, market, rule)

    def _over(self, round: Clearing) -> Where:
        """The first account that is above the limit or would be: guests, stations, house."""
        charges = round.charges + [0] * (len(self._guests) - len(round.charges))
        for guest, (account, charge) in enumerate(zip(self._guests, charges), 1):
            if account + charge > _c.MAX_ACCOUNT:
                return Where(f'its account is {account:,}, the round adds {charge:,}', guest=guest)
        sales = round.sales + [(0, 0)] * (len(self.stations) - len(round.sales))
        for station, ((sold, paid), sale) in enumerate(zip(self.stations, sales), 1):
            if max(sold + sale[0], paid + sale[1]) > _c.MAX_ACCOUNT:
                return Where(f'it has sold {sold:,} and was paid {paid:,}, the round adds {sale[0]:,} and {sale[1]:,}',
                             station=station)
        return Where(f'the house has {self.house:,}, the round adds {round.margin:,}')

    @property
    def guests(self) -> List[int]:
        """What each guest was charged.

        >>> Ledger(2, 1).guests
        [0, 0]
        """
        return self._guests.tolist()

    @property
    def stations(self) -> List[Tuple[int, int]]:
        """kWh sold and payments of each station.

        >>> Ledger(2, 1).stations
        [(0, 0)]
        """
        return list(zip(self._stations[::2], self._stations[1::2]))

    @property
    def house(self) -> int:
        """The house's account.

        >>> Ledger(2, 1).house
        0
        """
        return self._house.value

    @property
    def last(self) -> List[int]:
        """The last round of each desk.

        >>> Ledger(2, 1).last
        [0, 0, 0, 0, 0, 0, 0, 0]
        """
        return self._last.tolist()

    def __eq__(self, other: object) -> bool:
        return isinstance(other, Ledger) and (
            (self.guests, self.stations, self.house, self.last)
            == (other.guests, other.stations, other.house, other.last))

    __hash__ = None  # type: ignore[assignment]  # a posting changes it

    def __repr__(self) -> str:
        return f'<Ledger of {len(self._guests)} guests and {len(self._stations) // 2} stations>'
