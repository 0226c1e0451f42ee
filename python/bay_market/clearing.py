"""Clearing a market, telling what decided, and marking a clearing that is handed in."""
from __future__ import annotations

from array import array
from ctypes import byref, c_uint8, c_uint32, c_uint64
from functools import partial
from typing import Any, Callable, Dict, List, NamedTuple, Optional, Tuple

from . import _c
from ._library import lib, unconverted
from .lending import fits, lend, lent, number, rows
from .market import Market
from .refusal import Refused
from .where import in_round, in_submission


RULES = (_c.RULE_MEDIAN, _c.RULE_TWO_THIRDS)
HANDED_IN = ('stations', 'charges', 'sold', 'paid', 'places', 'floors')


def rule_number(rule: Any) -> int:
    """A rule as it is lent: what is no byte is lent as 0, which the engine refuses with 18.

    >>> rule_number(2), rule_number(257)
    (2, 0)
    """
    return number(rule, 255, instead=0)


class Clearing(NamedTuple):
    """A round: a number for each guest in `stations` (0 for none) and `charges`, for each station in `sold` and `paid`.
    `places`, in rows, and `floors` are there where they were asked for."""
    rule: int
    quiet: bool
    cut: int
    margin: int
    stations: List[int]
    charges: List[int]
    sold: List[int]
    paid: List[int]
    places: Optional[List[List[int]]] = None
    floors: Optional[List[int]] = None

    @property
    def seats(self) -> List[Tuple[int, int]]:
        """Station and charge of each guest.

        >>> clear(Market([2, 6], [1, 1], [3, 3], [1, 2], [8, 0, 8, 0])).seats
        [(1, 24), (0, 0)]
        """
        return list(zip(self.stations, self.charges))

    @property
    def sales(self) -> List[Tuple[int, int]]:
        """kWh sold and payment of each station.

        >>> clear(Market([2, 6], [1, 1], [3, 3], [1, 2], [8, 0, 8, 0])).sales
        [(3, 18), (0, 0)]
        """
        return list(zip(self.sold, self.paid))

    def as_dict(self) -> Dict[str, Any]:
        """The round as an object of JSON.

        >>> clear(Market([2], [1], [], [], [])).as_dict()
        {'round': 'truthful', 'rule': 1, 'cut': 2, 'margin': 0, 'stations': [], 'charges': [], 'sold': [0], 'paid': [0]}
        """
        known = {key: value for key, value in self._asdict().items() if key != 'quiet' and value is not None}
        return {'round': 'quiet' if self.quiet else 'truthful', **known}

    def lines(self) -> List[str]:
        """The lines of ./clear; with places and floors, lines of these before the margin.

        >>> clear(Market([2, 6], [1, 1], [3], [1], [8, 0]), marked=True).lines()[-4:]
        ['floor 1 0', 'floor 2 0', 'places 1 1', 'margin 0']
        """
        out = [f'cut {self.cut}']
        out += [f'guest {k} station {station} charge {charge}' for k, (station, charge) in enumerate(self.seats, 1)]
        out += [f'station {k} sold {sold} paid {paid}' for k, (sold, paid) in enumerate(self.sales, 1)]
        out += [f'floor {k} {floor}' for k, floor in enumerate(self.floors or [], 1)]
        out += [f'places {k}' + ''.join(f' {station}' for station, held in enumerate(row, 1) if held)
                for k, row in enumerate(self.places or [], 1)]
        return out + [f'margin {self.margin}']


class Engine:
    """A market and the memory of its results, wrapped once for many clearings. What changes in the lists that the
    market was lent is seen by the next clearing.

    >>> bids = array('I', [8, 0, 8, 0])
    >>> engine = Engine(Market([2, 6], [1, 1], [3, 3], [1, 2], bids))
    >>> engine.clear()
    >>> engine.stations.tolist(), engine.charges.tolist(), engine.cut
    ([1, 0], [24, 0], 6)
    >>> bids[2] = 9
    >>> engine.clear()
    >>> engine.stations.tolist()
    [0, 1]
    """

    def __init__(self, market: Market) -> None:
        self.market = market
        self.stations, self.charges, self.sold, self.paid = _results(market)
        self._cut, self._margin = c_uint32(), c_uint64()
        self._views = [memoryview(held) for held in (self.stations, self.charges, self.sold, self.paid)]
        arguments = [*market.lent, *lent(*self._views)]
        self._lent = [kind(argument) for kind, argument in zip(_c.SIGNATURES['clear'][1:], arguments)]
        self._lent += [byref(self._cut), byref(self._margin)]
        self._truthful = {rule: self._call(rule, False) for rule in RULES}
        self._quiet = {rule: self._call(rule, True) for rule in RULES}

    def _call(self, rule: int, quiet: bool) -> Callable[[], int]:
        return partial(unconverted('clear_efficient' if quiet else 'clear'), c_uint8(rule), *self._lent)

    def clear(self, rule: int = 1, quiet: bool = False) -> None:
        """Clears the market as it is now; the results stand in the lists of this object.

        >>> Engine(Market([2], [1], [], [], [])).clear(rule=3)
        Traceback (most recent call last):
        bay_market.refusal.Refused: refused 18: the number names no rule: it is neither 1 nor 2: the rule is 3
        """
        calls = self._quiet if quiet else self._truthful
        call = calls.get(rule) if rule.__class__ is int else None
        answer = call() if call else self._call(rule_number(rule), quiet)()
        if answer:
            raise Refused(answer, in_round(answer, self.market, rule))

    @property
    def cut(self) -> int:
        """The cut of the last clearing.

        >>> engine = Engine(Market([2, 6], [1, 1], [3, 3], [1, 2], [8, 0, 8, 0]))
        >>> engine.clear()
        >>> engine.cut
        6
        """
        return self._cut.value

    @property
    def margin(self) -> int:
        """The margin of the last clearing.

        >>> engine = Engine(Market([2, 6], [1, 1], [3, 3], [1, 2], [8, 0, 8, 0]))
        >>> engine.clear()
        >>> engine.margin
        6
        """
        return self._margin.value


def clear(market: Market, rule: int = 1, quiet: bool = False, marked: bool = False) -> Clearing:
    """Clears a market in a truthful round, or in a quiet one; `marked` gives places and floors too.

    >>> market = Market([2, 6], [1, 1], [3, 3], [1, 2], [8, 0, 8, 0])
    >>> clear(market).seats
    [(1, 24), (0, 0)]
    >>> clear(market, marked=True).places
    [[1, 0], [0, 0]]
    >>> clear(market, rule=3)
    Traceback (most recent call last):
    bay_market.refusal.Refused: refused 18: the number names no rule: it is neither 1 nor 2: the rule is 3
    """
    if quiet and marked:
        raise ValueError('places and floors are of a truthful round: quiet and marked do not go together')
    n, m = market.n, market.m
    results, cut, margin = _results(market), c_uint32(), c_uint64()
    places, floors = bytearray(n * m), array('I', bytes(4 * m))
    function = lib.clear_marked if marked else lib.clear_efficient if quiet else lib.clear
    more = lent(places, floors) if marked else []
    answer = function(rule_number(rule), *market.lent, *lent(*results), *more, byref(cut), byref(margin))
    if answer:
        raise Refused(answer, in_round(answer, market, rule))
    stations, charges, sold, paid = (held.tolist() for held in results)
    cleared = Clearing(rule, bool(quiet), cut.value, margin.value, stations, charges, sold, paid)
    if not marked:
        return cleared
    return cleared._replace(places=[list(places[k * m:(k + 1) * m]) for k in range(n)], floors=floors.tolist())


def _results(market: Market) -> Tuple[array[int], array[int], array[int], array[int]]:
    """Lists for stations, charges, sold, paid."""
    n, m = market.n, market.m
    return array('H', bytes(2 * n)), array('I', bytes(4 * n)), array('I', bytes(4 * m)), array('Q', bytes(8 * m))


class Explanation(NamedTuple):
    """What decided a truthful round: a code for each guest and station, row after row (CODES has their texts), and each
    guest's outcome: station and charge, or the reason of its loss."""
    codes: bytes
    stations: List[int]
    charges: List[int]
    reasons: List[int]

    def lines(self) -> List[str]:
        """The lines of ./clear --why.

        >>> explain(Market([2, 6], [1, 1], [3, 3], [1, 2], [8, 0, 8, 0])).lines()
        ['guest 1 wins station 1 charge 24', 'guest 2 loses: outbid']
        """
        outcomes = enumerate(zip(self.stations, self.charges, self.reasons), 1)
        return [f'guest {k} ' + (f'wins station {station} charge {charge}' if station else f'loses: {_c.CODES[reason]}')
                for k, (station, charge, reason) in outcomes]


def explain(market: Market, rule: int = 1) -> Explanation:
    """Tells each guest what decided.

    >>> list(explain(Market([2, 6], [1, 1], [3, 3], [1, 2], [8, 0, 8, 0])).codes)
    [0, 1, 4, 1]
    """
    n, m = market.n, market.m
    codes, reasons = bytearray(n * m), bytearray(n)
    stations, charges = array('H', bytes(2 * n)), array('I', bytes(4 * n))
    answer = lib.explain(rule_number(rule), *market.lent, *lent(codes, stations, charges, reasons))
    if answer:
        raise Refused(answer, in_round(answer, market, rule))
    return Explanation(bytes(codes), stations.tolist(), charges.tolist(), list(reasons))


def mark(market: Market, handed: Clearing, rule: int = 1) -> bool:
    """Whether every number of a clearing that is handed in, with places and floors, is that of the truthful round.

    >>> market = Market([2, 6], [1, 1], [3, 3], [1, 2], [8, 0, 8, 0])
    >>> right = clear(market, marked=True)
    >>> mark(market, right), mark(market, right._replace(margin=5))
    (True, False)
    """
    if handed.places is None or handed.floors is None:
        raise ValueError('places and floors are wanted: a clearing that is handed in has both')
    for name, value, top in (('cut', handed.cut, 2 ** 32 - 1), ('margin', handed.margin, 2 ** 64 - 1)):
        if not fits(value, top):
            raise ValueError(f'{name}: it is {value!r:.60}, not a whole number of 0 to {top}')
    flat = handed._replace(places=rows('places', handed.places)[0])
    lists = {name: lend(name, getattr(flat, name)) for name in HANDED_IN}
    correct = c_uint8()
    answer = lib.mark(rule_number(rule), *market.lent, *lent(*lists.values()), handed.cut, handed.margin,
                      byref(correct))
    if answer:
        raise Refused(answer, in_submission(answer, market, rule, lists))
    return correct.value == 1
