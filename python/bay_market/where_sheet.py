"""Where a sheet is refused, by a walk over it: a help after the engine has refused, not part of what is proved."""
from __future__ import annotations

from typing import Iterator, Optional, Tuple

from . import _c
from .refusal import Where

Fault = Tuple[int, Where]


def in_sheet(number: int, sheet: bytes) -> Where:
    """The place of the fault of that number.

    >>> in_sheet(4, bytes.fromhex('0000 0100 02000000 0100 07')).byte
    10
    """
    found, where = look(sheet)
    return where if found == number else Where()


def look(sheet: bytes) -> Fault:
    """The first fault of a sheet and its place, or 0.

    >>> number, where = look(bytes.fromhex('0000 0100 02000000'))
    >>> number, str(where), where.detail
    (1, 'byte 8, station 1', 'bays want bytes 8 to 9, the sheet has 8 bytes')
    """
    size = len(sheet)
    if size < 4:
        return 1, Where(f'the header wants bytes 0 to 3, the sheet has {size} bytes', byte=size)
    n, m = int.from_bytes(sheet[:2], 'little'), int.from_bytes(sheet[2:4], 'little')
    if n > _c.MAX_GUESTS or not 1 <= m <= _c.MAX_STATIONS:
        return 2, Where(f'the header says {n:,} guests and {m:,} stations', byte=0 if n > _c.MAX_GUESTS else 2)
    at = 4
    for name, length, who in _fields(n, m, sheet):
        if at + length > size:
            verb = 'want' if name == 'bays' else 'wants'
            return 1, who._replace(byte=size, detail=f'{name} {verb} bytes {at} to {at + length - 1}, '
                                                     f'the sheet has {size} bytes')
        fault = _wrong(name, sheet[at:at + length], m)
        if fault:
            return fault[0], who._replace(byte=at + fault[1], detail=fault[2])
        at += length
    if at < size:
        return 4, Where(f'the last row ends here, the sheet has {size - at} bytes more', byte=at)
    return 0, Where()


def _fields(n: int, m: int, sheet: bytes) -> Iterator[Tuple[str, int, Where]]:
    """Name, length and owner of each field after the header, one after the other."""
    at, wide = 4 + 6 * m, (m + 7) // 8
    for station in range(1, m + 1):
        yield 'ask', 4, Where(station=station)
        yield 'bays', 2, Where(station=station)
    for guest in range(1, n + 1):
        yield 'amount', 2, Where(guest=guest)
        yield 'ticket', 4, Where(guest=guest)
        yield 'map', wide, Where(guest=guest)
        bits = int.from_bytes(sheet[at + 6:at + 6 + wide], 'little')
        at += 6 + wide
        for station in range(1, m + 1):
            if bits >> (station - 1) & 1:
                yield 'bid', 4, Where(guest=guest, station=station)
                at += 4


def _wrong(name: str, field: bytes, m: int) -> Optional[Tuple[int, int, str]]:
    """Number, byte within the field and detail of a fault in a map or a bid."""
    value = int.from_bytes(field, 'little')
    if name == 'map' and value >> m:
        bit = next(bit for bit in range(m, 8 * len(field)) if value >> bit & 1)
        return 3, bit // 8, f'the bit of station {bit + 1} is set, the market has {m}'
    if name == 'bid' and not value:
        return 19, 0, 'its bit is set and its bid is 0'
    return None
