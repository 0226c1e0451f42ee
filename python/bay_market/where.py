"""Where a fault lies in the lists of a call: a help after the engine has refused, not part of what is proved."""
from __future__ import annotations

from typing import TYPE_CHECKING, Callable, Dict, Mapping, Optional, Sequence

from . import _c
from .refusal import Where

if TYPE_CHECKING:
    from .market import Market


def first(values: Sequence[int], wrong: Callable[[int], bool]) -> Optional[int]:
    """The first wrong value's position, from 0.

    >>> first([3, 0, 5], lambda value: value == 0)
    1
    """
    return next((k for k, value in enumerate(values) if wrong(value)), None)


def above(top: int) -> Callable[[int], bool]:
    """
    >>> above(3)(4)
    True
    """
    return lambda value: value > top


def outside(top: int) -> Callable[[int], bool]:
    """
    >>> outside(3)(0), outside(3)(3)
    (True, False)
    """
    return lambda value: not 1 <= value <= top


def in_market(number: int, market: Market) -> Where:
    """The first place of a market's lists with the fault of that number.

    >>> from bay_market import Market
    >>> in_market(8, Market([2], [1], [3, 0], [1, 2], [8, 8])).as_dict()
    {'guest': 2, 'detail': 'its amount is 0'}
    """
    finder = _FINDERS.get(number)
    return finder(market) if finder else Where()


def in_round(number: int, market: Market, rule: object) -> Where:
    """The place of a fault of a call on a market by a rule.

    >>> from bay_market import Market
    >>> in_round(18, Market([2], [1], [], [], []), 257).detail
    'the rule is 257'
    """
    return Where(f'the rule is {rule!r:.60}') if number == 18 else in_market(number, market)


def _counts(market: Market) -> Where:
    return Where(f'{market.n:,} guests, {market.m:,} stations')


def _lengths(market: Market) -> Where:
    if len(market.bays) != market.m:
        return Where(f'{len(market.bays)} long, wanted {market.m}', list='bays')
    if market.width != market.m:
        return Where(f'rows of {market.width}, wanted {market.m}', list='bids')
    if len(market.tickets) != market.n:
        return Where(f'{len(market.tickets)} long, wanted {market.n}', list='tickets')
    if len(market.bids) != market.n * market.m:
        return Where(f'{len(market.bids)} long, wanted {market.n} times {market.m}', list='bids')
    return Where()


def _asks(market: Market) -> Where:
    k = first(market.asks, above(_c.MAX_PRICE))
    return Where() if k is None else Where(f'its ask is {market.asks[k]:,}', station=k + 1)


def _bays(market: Market) -> Where:
    k = first(market.bays, outside(_c.MAX_BAYS))
    return Where() if k is None else Where(f'its bays are {market.bays[k]:,}', station=k + 1)


def _amounts(market: Market) -> Where:
    k = first(market.amounts, outside(_c.MAX_AMOUNT))
    return Where() if k is None else Where(f'its amount is {market.amounts[k]:,}', guest=k + 1)


def _bids(market: Market) -> Where:
    k = first(market.bids, above(_c.MAX_PRICE))
    if k is None:
        return Where()
    return Where(f'its bid is {market.bids[k]:,}', guest=k // market.m + 1, station=k % market.m + 1)


def _tickets(market: Market) -> Where:
    seen: Dict[int, int] = {}
    for guest, ticket in enumerate(market.tickets, 1):
        if ticket in seen:
            return Where(f"ticket {ticket} is guest {seen[ticket]}'s too", guest=guest)
        seen[ticket] = guest
    return Where()


_FINDERS: Dict[int, Callable[[Market], Where]] = {
    2: _counts, 5: _lengths, 6: _asks, 7: _bays, 8: _amounts, 9: _bids, 15: _tickets}


def in_places(number: int, prices: Sequence[int], falls: Sequence[int], *cells: Sequence[int]) -> Where:
    """The first place with the fault of that number in prices, falls and the coordinates of guests and stations.

    >>> str(in_places(17, [5, 1000001], [0, 0], [0, 0], [0, 0], [0], [0]))
    'guest 2'
    """
    guests, stations = len(cells[0]), len(cells[2])
    if number == 2:
        return Where(f'{guests:,} guests, {stations:,} stations')
    if number == 5:
        return next((Where(f'{len(values)} long, wanted {guests}', list=name)
                     for name, values in (('prices', prices), ('falls', falls)) if len(values) != guests), Where())
    if number == 16:
        for kind, pairs in (('guest', zip(*cells[:2])), ('station', zip(*cells[2:]))):
            for k, cell in enumerate(pairs, 1):
                if max(cell) > _c.MAX_CELL:
                    place = Where(f'its cell is {cell}')
                    return place._replace(guest=k) if kind == 'guest' else place._replace(station=k)
    for k, (price, fall) in enumerate(zip(prices, falls), 1):
        if max(price, fall) > _c.MAX_PRICE:
            return Where(f'its price is {price:,}, its fall {fall:,}', guest=k)
    return Where()


def in_gates(number: int, one: Market, two: Market) -> Where:
    """The place of a fault that two markets have together.

    >>> from bay_market import Market
    >>> in_gates(21, Market([2], [1], [3], [7], [8]), Market([2], [1], [3], [7], [8])).detail
    "ticket 7 is guest 1's at the first gate"
    """
    if number == 2:
        return Where(f'{one.n} and {two.n} guests are {one.n + two.n}')
    if number == 20:
        return _stations_differ(one, two)
    seen = {ticket: guest for guest, ticket in enumerate(one.tickets, 1)}
    for guest, ticket in enumerate(two.tickets, 1):
        if ticket in seen:
            return Where(f"ticket {ticket} is guest {seen[ticket]}'s at the first gate", guest=guest, gate='second')
    return Where()


def _stations_differ(one: Market, two: Market) -> Where:
    if one.m != two.m:
        return Where(f'{one.m} stations at the first gate, {two.m} at the second')
    for name, pairs in (('ask', zip(one.asks, two.asks)), ('bays', zip(one.bays, two.bays))):
        for station, (left, right) in enumerate(pairs, 1):
            if left != right:
                return Where(f'{name} {left:,} at the first gate, {right:,} at the second', station=station)
    return Where()


def in_trial(number: int, market: Market, rule: object, guest: int, lists: Mapping[str, Sequence[int]]) -> Where:
    """The first place of a fault in a market, a guest's number, its worths and its row or rows.

    >>> from bay_market import Market
    >>> str(in_trial(9, Market([2], [1], [3], [7], [8]), 1, 1, {'worths': [8], 'row': [1000001]}))
    'station 1, list row'
    """
    if number == 24:
        return Where(f'the market has {market.n} guests', guest=guest)
    place = in_round(number, market, rule)
    for name, values in lists.items():
        if not place and number == 9:
            place = _too_dear(name, values, market.m)
        if not place and number == 5:
            place = _another_length(name, values, market.m)
    return place


def _too_dear(name: str, values: Sequence[int], m: int) -> Where:
    k = first(values, above(_c.MAX_PRICE))
    if k is None:
        return Where()
    row = f'row {k // m + 1}, ' if name == 'rows' else ''
    return Where(f'{row}it is {values[k]:,}', station=k % m + 1, list=name)


def _another_length(name: str, values: Sequence[int], m: int) -> Where:
    if name == 'rows':
        return Where(f'{len(values)} long, no multiple of {m}', list=name) if len(values) % m else Where()
    return Where(f'{len(values)} long, wanted {m}', list=name) if len(values) != m else Where()


def in_submission(number: int, market: Market, rule: object, lists: Mapping[str, Sequence[int]]) -> Where:
    """The first place of a fault in a market and the lists that are handed in.

    >>> from bay_market import Market
    >>> str(in_submission(10, Market([2], [1], [3], [7], [8]), 1, {'stations': [1], 'charges': []}))
    'list charges'
    """
    if number != 10:
        return in_round(number, market, rule)
    n, m = market.n, market.m
    wanted = {'stations': n, 'charges': n, 'sold': m, 'paid': m, 'places': n * m, 'floors': m}
    return next((Where(f'{len(values)} long, wanted {wanted[name]}', list=name)
                 for name, values in lists.items() if len(values) != wanted[name]), Where())
