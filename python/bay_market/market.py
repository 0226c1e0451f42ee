"""Markets: five lists, lent to the engine as they are; sheets and comma-separated text in and out."""
from __future__ import annotations

import ctypes
from array import array
from typing import Any, Callable, List, Sequence, Tuple

from . import _c
from ._library import lib
from .lending import lend, lent, rows
from .placing import Cells, place
from .refusal import Refused, Where
from .where import in_market
from .where_csv import in_csv
from .where_sheet import in_sheet

LISTS = ('asks', 'bays', 'amounts', 'tickets', 'bids')


class Market:
    """A market: ask and bays of each station, amount (kWh) and ticket of each guest, and the bids, as rows or row after
    row. Guests and stations are numbered from 1.

    Lists are copied once. An `array`, a memoryview or a numpy array of the right items is lent as it is: what changes
    in it later changes in the market.

    >>> market = Market(asks=[2, 6], bays=[1, 1], amounts=[3, 3], tickets=[1, 2], bids=[[8, 0], [8, 0]])
    >>> market.n, market.m, market.row(2)
    (2, 2, [8, 0])
    >>> Market([2, 6], [1, 70000], [3, 3], [1, 2], [8, 0, 8, 0])
    Traceback (most recent call last):
    ValueError: bays: element 2 is 70000, not a whole number of 0 to 65535
    """
    asks: memoryview
    bays: memoryview
    amounts: memoryview
    tickets: memoryview
    bids: memoryview
    n: int                      # guests
    m: int                      # stations
    width: int                  # of a row of bids
    lent: Tuple[int, ...]       # the arguments of every call on a market

    def __init__(self, asks: Any, bays: Any, amounts: Any, tickets: Any, bids: Any) -> None:
        bids, width = rows('bids', bids)
        held = {name: lend(name, given) for name, given in zip(LISTS, (asks, bays, amounts, tickets, bids))}
        n, m = len(held['amounts']), len(held['asks'])
        self.__dict__.update(held, n=n, m=m, width=width or m, lent=(*lent(*held.values()), width or m))

    def __setattr__(self, name: str, value: object) -> None:
        raise AttributeError(f'{name}: a market keeps its lists, whose addresses are lent')

    def __delattr__(self, name: str) -> None:
        raise AttributeError(f'{name}: a market keeps its lists, whose addresses are lent')

    def row(self, guest: int) -> List[int]:
        """The bids of a guest.

        >>> Market([2, 6], [1, 1], [3, 3], [1, 2], [8, 0, 9, 1]).row(2)
        [9, 1]
        """
        if not 1 <= guest <= self.n:
            raise IndexError(f'guest {guest}: the market has {self.n} guests')
        return self.bids[(guest - 1) * self.width:guest * self.width].tolist()

    def rows(self) -> List[List[int]]:
        """The bids of every guest.

        >>> Market([2, 6], [1, 1], [3, 3], [1, 2], [8, 0, 9, 1]).rows()
        [[8, 0], [9, 1]]
        """
        return [self.row(guest) for guest in range(1, self.n + 1)]

    def with_row(self, guest: int, row: Sequence[int]) -> Market:
        """A market with another row for one guest.

        >>> Market([2, 6], [1, 1], [3, 3], [1, 2], [8, 0, 9, 1]).with_row(1, [7, 5]).rows()
        [[7, 5], [9, 1]]
        """
        if len(self.row(guest)) != len(row):
            raise ValueError(f'row: {len(row)} bids, guest {guest} has {len(self.row(guest))}')
        bids = array('I', self.bids)
        bids[(guest - 1) * self.width:guest * self.width] = array('I', lend('row', row))
        return Market(self.asks, self.bays, self.amounts, self.tickets, bids)

    def __eq__(self, other: object) -> bool:
        return isinstance(other, Market) and self.width == other.width and all(
            getattr(self, name) == getattr(other, name) for name in LISTS)

    __hash__ = None  # type: ignore[assignment]  # what is lent may change

    def __repr__(self) -> str:
        return f'<Market of {self.n} guests and {self.m} stations>'

    @classmethod
    def from_sheet(cls, sheet: bytes) -> Market:
        """Reads a sheet (docs/FORMAT.md).

        >>> Market.from_sheet(bytes.fromhex('0000 0100 02000000 0100'))
        <Market of 0 guests and 1 stations>
        >>> Market.from_sheet(b'\\x02\\x00\\x02')
        Traceback (most recent call last):
        bay_market.refusal.Refused: refused 1: ...: byte 3: the header wants bytes 0 to 3, the sheet has 3 bytes
        """
        return _read(lib.read, sheet, in_sheet)

    @classmethod
    def from_csv(cls, text: bytes) -> Market:
        """Reads a comma-separated market (docs/FORMAT.md).

        >>> Market.from_csv(b'2,6\\r\\n1,1\\r\\n1,3,8,\\r\\n2,3,8,\\r\\n').rows()
        [[8, 0], [8, 0]]
        >>> Market.from_csv(b'2,6\\n1,1\\n')
        Traceback (most recent call last):
        bay_market.refusal.Refused: refused 22: ...: line 1, field 2: LF without CR: each line ends in CR LF
        """
        return _read(lib.read_csv, text, in_csv)

    @classmethod
    def from_bytes(cls, data: bytes) -> Market:
        """Reads a sheet or a comma-separated market, whichever it is.

        >>> Market.from_bytes(b'2,6\\r\\n1,1\\r\\n')
        <Market of 0 guests and 2 stations>
        """
        held = _bytes(data)
        return cls.from_sheet(held) if is_sheet(held) else cls.from_csv(held)

    @classmethod
    def from_places(cls, asks: Any, bays: Any, amounts: Any, tickets: Any, prices: Any, falls: Any,
                    guests: Cells, stations: Cells) -> Market:
        """A market whose bids are placed: price less fall times walk.

        >>> cells = [(3, 4), (0, 0)], [(0, 0), (1, 1)]
        >>> Market.from_places([2, 6], [1, 1], [3, 3], [1, 2], [500, 500], [2, 2], *cells).rows()
        [[400, 428], [500, 472]]
        """
        return cls(asks, bays, amounts, tickets, place(prices, falls, guests, stations))

    def to_sheet(self) -> bytes:
        """The market's shortest sheet.

        >>> Market([2], [1], [], [], []).to_sheet().hex(' ')
        '00 00 01 00 02 00 00 00 01 00'
        """
        sheet, length = ctypes.create_string_buffer(_c.MAX_SHEET), ctypes.c_size_t()
        answer = lib.write(*self.lent, sheet, len(sheet), ctypes.byref(length))
        if answer:
            raise Refused(answer, in_market(answer, self))
        return sheet.raw[:length.value]

    def to_csv(self) -> bytes:
        """The market as comma-separated text: asks, bays, then ticket, amount and bids of each guest. It is read back
        by the engine, and is never another market.

        >>> Market([2, 6], [1, 1], [3], [1], [8, 0]).to_csv()
        b'2,6\\r\\n1,1\\r\\n1,3,8,\\r\\n'
        """
        lines = [[str(ask) for ask in self.asks], [str(bays) for bays in self.bays]]
        for ticket, amount, row in zip(self.tickets, self.amounts, self.rows()):
            lines.append([str(ticket), str(amount), *(str(bid) if bid else '' for bid in row)])
        text = ''.join(','.join(line) + '\r\n' for line in lines).encode()
        if not self._is_read_from(text):
            self.to_sheet()     # the engine says what is wrong with the lists
            raise ValueError('the comma-separated text does not read back as this market')
        return text

    def _is_read_from(self, text: bytes) -> bool:
        try:
            return Market.from_csv(text) == self
        except Refused:
            return False


def is_sheet(data: bytes) -> bool:
    """Whether these are a sheet's bytes: none at all, or a byte of 0 among the first four. Else they are text.

    >>> is_sheet(b'2,6\\r\\n1,1\\r\\n'), is_sheet(bytes(4))
    (False, True)
    """
    return not data or 0 in data[:4]


def _bytes(data: Any) -> bytes:
    try:
        return memoryview(data).tobytes()
    except TypeError:
        raise TypeError(f'bytes are wanted, as of a file that is opened with "rb", not {type(data).__name__}') from None


def _read(function: Any, data: bytes, where: Callable[[int, bytes], Where]) -> Market:
    """A market that the engine reads, into tables of the greatest size."""
    amounts, tickets = array('H', bytes(2 * _c.MAX_GUESTS)), array('I', bytes(4 * _c.MAX_GUESTS))
    asks, bays = array('I', bytes(4 * _c.MAX_STATIONS)), array('H', bytes(2 * _c.MAX_STATIONS))
    bids = array('I', bytes(4 * _c.MAX_BIDS))
    n, m = ctypes.c_uint16(), ctypes.c_uint16()
    held = _bytes(data)
    answer = function(held, len(held), *lent(amounts, tickets, asks, bays, bids), ctypes.byref(n), ctypes.byref(m))
    if answer:
        raise Refused(answer, where(answer, held))
    guests, stations = n.value, m.value
    return Market(asks[:stations], bays[:stations], amounts[:guests], tickets[:guests], bids[:guests * stations])
