"""The markets of a course, drawn from seed and round. Only random() is used, which gives the same numbers in every
version of Python."""
from __future__ import annotations

import random
from typing import List, NamedTuple, Optional

from .market import Market


class Drawn(NamedTuple):
    """A market whose bids are the guests' worths, and the guests in a random order: bidder k is the k-th of them."""
    market: Market
    order: List[int]


class _Numbers:
    def __init__(self, words: str) -> None:
        self._random = random.Random(words.encode('utf-8', 'surrogateescape')).random

    def whole(self, low: int, high: int) -> int:
        return low + int(self._random() * (high - low + 1))

    def shuffled(self, count: int) -> List[int]:
        """1 to count in a random order."""
        out = list(range(1, count + 1))
        for k in range(count - 1, 0, -1):
            at = self.whole(0, k)
            out[k], out[at] = out[at], out[k]
        return out


def drawn(seed: str, number: int, guests: int, stations: int) -> Drawn:
    """The market of a round: asks of 90 to 450 mills, bays for about six guests in ten, 5 to 80 kWh, and worths around
    a guest's own level at six stations of ten.

    >>> market, order = drawn('7', 1, 3, 2)
    >>> market.asks.tolist(), market.bays.tolist(), market.amounts.tolist(), market.rows(), order
    ([97, 352], [1, 1], [67, 67, 48], [[363, 194], [0, 552], [0, 0]], [3, 1, 2])
    """
    numbers = _Numbers(f'bay course {number} {seed}')
    asks = [numbers.whole(90, 450) for _ in range(stations)]
    most = max(1, round(1.2 * guests / stations))
    bays = [numbers.whole(1, most) for _ in range(stations)]
    amounts = [numbers.whole(5, 80) for _ in range(guests)]
    worths = []
    for _ in range(guests):
        level = numbers.whole(200, 500)
        worths.append([numbers.whole(level - 120, level + 120) if numbers.whole(1, 10) <= 6 else 0
                       for _ in range(stations)])
    tickets, order = numbers.shuffled(guests), numbers.shuffled(guests)
    return Drawn(Market(asks, bays, amounts, tickets, worths), order)


def round_of(seed: str, number: int, guests: int, stations: int, given: Optional[Market]) -> Drawn:
    """The market of a round: a given one is that of every round, and bidders keep their guests, so that they can learn.

    >>> given = Market([2], [1], [3, 4], [1, 2], [8, 9])
    >>> round_of('7', 1, 2, 1, given) == round_of('7', 2, 2, 1, given)
    True
    """
    if given is None:
        return drawn(seed, number, guests, stations)
    return Drawn(given, _Numbers(f'bay course {seed}').shuffled(given.n))
