"""The journal: what a posting and a refusal leave behind, and the chain of sums over the postings."""
from __future__ import annotations

import getpass
import os
import socket
import time
from functools import lru_cache
from hashlib import sha256
from typing import NamedTuple, Optional

from .. import _c
from ..market import Market
from ..refusal import Refused

CHAIN = 1               # the form of the sums; it stays where the form of the tables changes


class Posting(NamedTuple):
    """A posted round, as the journal has it. `sheet` is the one that the engine writes of the market."""
    entry: int
    desk: int
    round: int
    rule: int
    sheet: bytes
    at: str
    who: str
    sum: bytes


class Refusal(NamedTuple):
    """A posting that was refused. `entries` is the count of postings before it; `sheet` is None where it was no market
    of at most 200 guests and 40 stations, so that it cannot be replayed. Numbers are those that the engine was lent."""
    refusal: int
    number: int
    entries: int
    desk: int
    round: int
    rule: int
    place: str
    sheet: Optional[bytes]
    at: str
    who: str


def first_sum(guests: int, stations: int) -> bytes:
    """The sum of a book with no postings.

    >>> first_sum(200, 40).hex()[:16]
    '2dff1a79c8fb3536'
    """
    return sha256(b'bay book %d %d %d\n' % (CHAIN, guests, stations)).digest()


def next_sum(before: bytes, entry: int, desk: int, round: int, rule: int, sheet: bytes) -> bytes:
    """The sum after a posting: SHA-256 over the sum before it and what it says.

    >>> next_sum(first_sum(200, 40), 1, 3, 1, 1, b'').hex()[:16]
    'b8d497b6faad5d95'
    """
    return sha256(b'%b%d %d %d %d %d\n%b' % (before, entry, desk, round, rule, len(sheet), sheet)).digest()


def raw_sheet(market: Market) -> Optional[bytes]:
    """A sheet of a market's lists, whether the engine accepts them or not; None where no sheet states them.

    >>> market = Market([2, 6], [1, 1], [3, 3], [1, 2], [8, 0, 8, 0])
    >>> raw_sheet(market) == market.to_sheet()
    True
    >>> raw_sheet(Market([2], [], [], [], [])) is None
    True
    """
    n, m = market.n, market.m
    if not (n <= _c.MAX_GUESTS and 1 <= m <= _c.MAX_STATIONS and market.width == len(market.bays) == m
            and len(market.tickets) == n and len(market.bids) == n * m):
        return None
    out = bytearray(n.to_bytes(2, 'little') + m.to_bytes(2, 'little'))
    for ask, bays in zip(market.asks, market.bays):
        out += ask.to_bytes(4, 'little') + bays.to_bytes(2, 'little')
    for guest in range(n):
        row = market.bids[guest * m:(guest + 1) * m]
        bits = sum(1 << k for k, bid in enumerate(row) if bid)
        out += market.amounts[guest].to_bytes(2, 'little') + market.tickets[guest].to_bytes(4, 'little')
        out += bits.to_bytes((m + 7) // 8, 'little') + b''.join(bid.to_bytes(4, 'little') for bid in row if bid)
    return bytes(out)


def place_of(refused: Refused) -> str:
    """Where a refusal lies, in ASCII.

    >>> from bay_market import Where
    >>> place_of(Refused(8, Where('its amount is 0', guest=117)))
    'guest 117: its amount is 0'
    """
    text = ': '.join(filter(None, (str(refused.where), refused.where.detail)))
    return text.encode('ascii', 'backslashreplace').replace(b'\0', b'\\x00').decode()


def now() -> str:
    """The time, UTC, to the millisecond.

    >>> len(now()), now()[10], now()[-1]
    (24, 'T', 'Z')
    """
    seconds, rest = divmod(time.time_ns() // 1_000_000, 1000)
    return f'{time.strftime("%Y-%m-%dT%H:%M:%S", time.gmtime(seconds))}.{rest:03}Z'


@lru_cache(maxsize=None)
def who() -> str:
    """The user and the host of this process, in ASCII.

    >>> who().count('@')
    1
    """
    try:
        user = getpass.getuser()
    except (KeyError, OSError, ImportError):    # no such user, no name in the environment
        user = str(os.getuid())
    return f'{user}@{socket.gethostname()}'.encode('ascii', 'backslashreplace').replace(b'\0', b'').decode()
