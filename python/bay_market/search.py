"""Searching the rows of bids of a guest for one that gains more than the truth. In a truthful round there is none."""
from __future__ import annotations

from array import array
from itertools import combinations
from math import comb
from typing import Generator, List, NamedTuple, Optional, Sequence

from .clearing import Engine
from .counting import counted
from .market import Market
from .rows import Station, rows_of
from .trying import gains_array, menu, what_if
from .workers import shared

BLOCK, QUIET_BLOCK = 16384, 512
CHOICES = 10000             # of changed bids that are tried


class Outcome(NamedTuple):
    """What a row of bids does for the guest; station 0 is no seat."""
    row: List[int]
    gain: int
    station: int
    charge: int


class Tally(NamedTuple):
    """What was found so far: how many reports gain less than the truth, as much, and more; the worst gain, the best
    one, the block where it was found first, and its row."""
    less: int = 0
    equal: int = 0
    more: int = 0
    worst: int = 0
    best: int = 0
    block: int = 0
    row: Sequence[int] = ()

    @property
    def reports(self) -> int:
        """How many reports were tried.

        >>> Tally(3, 2, 1).reports
        6
        """
        return self.less + self.equal + self.more

    def with_(self, other: Tally) -> Tally:
        """Both together. Of equal rows that of the lower block is kept, whichever was found first.

        >>> Tally(1, 0, 0, 3, 3, 1, [5]).with_(Tally(0, 1, 0, 4, 4, 0, [6]))
        Tally(less=1, equal=1, more=0, worst=3, best=4, block=0, row=[6])
        """
        if not self.reports:
            return other
        better = min(self, other, key=lambda one: (-one.best, one.block))
        return Tally(self.less + other.less, self.equal + other.equal, self.more + other.more,
                     min(self.worst, other.worst), better.best, better.block, better.row)


class Search:
    """A guest's search: its worths are the truth, and the bids of all others stay as they are.

    >>> search = Search(Market([0, 0, 1, 1], [1] * 4, [1, 1], [1, 2], [2, 2, 0, 0, 2, 0, 0, 0]), 1)
    >>> search.truth
    Outcome(row=[2, 2, 0, 0], gain=1, station=2, charge=1)
    >>> found = search.found(2000)
    >>> found.reports, found.more, found.best
    (2000, 0, 1)
    """

    def __init__(self, market: Market, guest: int, worths: Optional[Sequence[int]] = None, rule: int = 1,
                 quiet: bool = False) -> None:
        listed = menu(market, guest, rule)                      # refuses the market and the guest
        self.market, self.guest, self.rule, self.quiet = market, guest, rule, quiet
        self.worths: List[int] = list(market.row(guest) if worths is None else worths)
        what_if(market, guest, self.worths, self.worths, rule)  # refuses the worths
        self._amount = market.amounts[guest - 1]
        self._bids = array('I', market.bids)
        self._engine = Engine(Market(market.asks, market.bays, market.amounts, market.tickets, self._bids))
        self.truth = self.outcome(self.worths)
        self.stations = [Station(worth, self._marks(item)) for worth, item in zip(self.worths, listed)]

    def _marks(self, item: Optional[Sequence[int]]) -> List[int]:
        bars = [] if item is None else [-(-item[0] // self._amount), item[1] // self._amount]
        return [self._engine.cut, *bars]

    def _clear(self, row: array[int]) -> int:
        """The gain of a row by a clearing of the market with it."""
        m = self.market.m
        self._bids[(self.guest - 1) * m:self.guest * m] = row
        self._engine.clear(self.rule, self.quiet)
        station = self._engine.stations[self.guest - 1]
        return self.worths[station - 1] * self._amount - self._engine.charges[self.guest - 1] if station else 0

    def outcome(self, row: Sequence[int]) -> Outcome:
        """What a row does.

        >>> Search(Market([2, 6], [1, 1], [3, 2], [1, 2], [9, 0, 10, 0]), 2).outcome([14, 0])
        Outcome(row=[14, 0], gain=-7, station=1, charge=27)
        """
        gain, at = self._clear(array('I', row)), self.guest - 1
        return Outcome(list(row), gain, self._engine.stations[at], self._engine.charges[at])

    def gains(self, rows: array[int]) -> array[int]:
        """The gains of rows that stand row after row: of a truthful round in one call, of a quiet one by a clearing
        each.

        >>> market = Market([2, 6], [1, 1], [3, 2], [1, 2], [9, 0, 10, 0])
        >>> rows = array('I', [10, 0, 14, 0])
        >>> Search(market, 2).gains(rows), Search(market, 2, quiet=True).gains(rows)
        (array('q', [0, -7]), array('q', [0, -7]))
        """
        if not self.quiet:
            return gains_array(self.market, self.guest, self.worths, rows, self.rule)
        m = self.market.m
        return array('q', [self._clear(rows[at:at + m]) for at in range(0, len(rows), m)])

    def tally(self, number: int, rows: array[int]) -> Tally:
        """What a block of rows gains.

        >>> search = Search(Market([2, 6], [1, 1], [3, 2], [1, 2], [9, 0, 10, 0]), 2)
        >>> search.tally(0, array('I', [14, 0, 10, 0, 14, 0]))
        Tally(less=2, equal=1, more=0, worst=-7, best=0, block=0, row=[10, 0])
        """
        gains, truth, m = self.gains(rows), self.truth.gain, self.market.m
        found = counted(gains)
        equal, more = found.get(truth, 0), sum(times for gain, times in found.items() if gain > truth)
        best = max(found)
        at = gains.index(best) * m
        return Tally(len(gains) - equal - more, equal, more, min(found), best, number, rows[at:at + m].tolist())

    def found_so_far(self, reports: int, seed: str = '1', processes: int = 1) -> Generator[Tally, None, None]:
        """What is found after each block. A seed gives the same rows with any number of processes.

        >>> search = Search(Market([2, 6], [1, 1], [3, 2], [1, 2], [9, 0, 10, 0]), 2)
        >>> [found.reports for found in search.found_so_far(700)]
        [234, 468, 700]
        """
        size = max(1, min(QUIET_BLOCK if self.quiet else BLOCK, -(-reports // 3)))

        def work(number: int) -> List[int]:
            count = min(size, reports - number * size)
            *numbers, row = self.tally(number, rows_of(seed, number, self.stations, count))
            return [*numbers, *row]
        whole = Tally()
        for _, numbers in shared(work, -(-reports // size), processes):
            less, equal, more, worst, best, block, *row = numbers
            whole = whole.with_(Tally(less, equal, more, worst, best, block, row))
            yield whole

    def found(self, reports: int, seed: str = '1', processes: int = 1) -> Tally:
        """What so many reports gain.

        >>> search = Search(Market([0, 0, 1, 1], [1] * 4, [1, 1], [1, 2], [2, 2, 0, 0, 2, 0, 0, 0]), 1, quiet=True)
        >>> search.found(3000, seed='7') == search.found(3000, seed='7', processes=2)
        True
        """
        whole = Tally()
        for whole in self.found_so_far(reports, seed, processes):
            pass
        return whole

    def reduced(self, row: Sequence[int]) -> Outcome:
        """The row with the fewest of its changed bids with which it gains no less: bids are put back to the truth one
        after the other, and then every choice of fewer is tried, if there are not too many.

        >>> search = Search(Market([0, 0, 1, 1], [1] * 4, [1, 1], [1, 2], [2, 2, 0, 0, 2, 0, 0, 0]), 1, quiet=True)
        >>> search.truth.gain, search.reduced([0, 2, 5, 7])
        (0, Outcome(row=[0, 2, 0, 0], gain=1, station=2, charge=1))
        """
        best, before = self.outcome(row), None
        while best.row != before:
            before = best.row
            for k, worth in enumerate(self.worths):
                back = self.outcome([*best.row[:k], worth, *best.row[k + 1:]])
                best = back if back.gain >= best.gain else best
        changed = self._changed(row)
        for size in range(len(self._changed(best.row))):
            if comb(len(changed), size) > CHOICES:
                break
            for kept in combinations(changed, size):
                tried = self.outcome([row[k] if k in kept else worth for k, worth in enumerate(self.worths)])
                if tried.gain >= best.gain:
                    return tried
        return best

    def _changed(self, row: Sequence[int]) -> List[int]:
        """Where a row has not the truth."""
        return [k for k, (bid, worth) in enumerate(zip(row, self.worths)) if bid != worth]
