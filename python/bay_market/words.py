"""What decided, in words with numbers: for `bay why --guest`, `bay show` and the picture.

Places, floors, codes, seats and charges are the engine's. Made here is their order: a station's candidates by falling
total, of equal ones the lower ticket first. Of a quiet round the engine gives no floors: they follow from that order.
Every charge that is shown is held to the engine's."""
from __future__ import annotations

from typing import List, NamedTuple, Optional, Sequence, Tuple

from ._c import CODES
from .clearing import Clearing, clear, explain
from .market import Market

HELD, NO_BID, NOT_OPEN, BELOW_CUT, OUTBID = range(5)


class Disagreement(Exception):
    """What is to be shown is not what the engine decided."""


class Candidate(NamedTuple):
    """A guest who bids at least the cut at an open station."""
    guest: int
    bid: int
    total: int          # bid times kWh
    least: int          # cut times kWh
    rank: int           # from 1
    held: bool          # a place of the truthful round, or a seat of the quiet one
    here: bool          # seated here
    seat: int           # the station where it is seated, 0 for none
    away: bool          # without a place, or turned away
    first: bool         # the first of those: its total is the floor
    charge: int         # what a place here costs it


class Station(NamedTuple):
    """A station with its candidates by falling total, and those below the cut as guest and bid."""
    station: int
    ask: int
    bays: int
    open: bool
    queue: List[Candidate]
    below: List[Tuple[int, int]]
    bids: int
    floor: int
    sold: int
    paid: int

    @property
    def first(self) -> Optional[Candidate]:
        """The first candidate without a place.

        >>> from bay_market import Market
        >>> look(Market([2, 6], [1, 1], [3, 3], [1, 2], [8, 0, 8, 0])).stations[0].first.guest
        2
        """
        return next((one for one in self.queue if one.first), None)


class Round(NamedTuple):
    """A market, its clearing, the codes of the truthful round of that rule, and each station."""
    market: Market
    clearing: Clearing
    codes: Sequence[int]
    stations: List[Station]


def look(market: Market, rule: int = 1, quiet: bool = False) -> Round:
    """A round with each station's queue.

    >>> from bay_market import Market
    >>> seen = look(Market([2, 6], [1, 1], [3, 3], [1, 2], [8, 0, 8, 0]))
    >>> [(one.guest, one.total, one.charge, one.here) for one in seen.stations[0].queue], seen.stations[0].floor
    ([(1, 24, 24, True), (2, 24, 24, False)], 24)
    """
    cleared = clear(market, rule, quiet, marked=not quiet)
    codes = explain(market, rule).codes
    return Round(market, cleared, codes, [_station(market, cleared, codes, k) for k in range(1, market.m + 1)])


def _station(market: Market, cleared: Clearing, codes: Sequence[int], station: int) -> Station:
    at, m = station - 1, market.m
    bids = [market.bids[k * m + at] for k in range(market.n)]
    here = [codes[k * m + at] for k in range(market.n)]
    below = sorted(((k + 1, bids[k]) for k in range(market.n) if here[k] == BELOW_CUT),
                   key=lambda pair: (-pair[1], pair[0]))
    line = sorted((k for k in range(market.n) if here[k] in (HELD, OUTBID)),
                  key=lambda k: (-bids[k] * market.amounts[k], market.tickets[k]))
    away = [_away(market, cleared, here[k], k, at) for k in line]
    first = away.index(True) if True in away else -1
    floor = bids[line[first]] * market.amounts[line[first]] if first >= 0 else 0
    queue = []
    for rank, k in enumerate(line):
        least, seat = cleared.cut * market.amounts[k], cleared.stations[k]
        held = seat == station if cleared.quiet else here[k] == HELD
        queue.append(Candidate(k + 1, bids[k], bids[k] * market.amounts[k], least, rank + 1, held, seat == station,
                               seat, away[rank], rank == first, max(least, floor)))
    made = Station(station, market.asks[at], market.bays[at], market.asks[at] < cleared.cut, queue, below,
                   sum(bid > 0 for bid in bids), floor, cleared.sold[at], cleared.paid[at])
    _hold(made, cleared)
    return made


def _away(market: Market, cleared: Clearing, code: int, k: int, at: int) -> bool:
    """Whether a candidate has no place; of a quiet round, whether it came before its seat and found no bay."""
    if not cleared.quiet:
        return code == OUTBID
    seat, row = cleared.stations[k], market.row(k + 1)
    return seat != at + 1 and (not seat or (-row[at], at) < (-row[seat - 1], seat - 1))


def _hold(made: Station, cleared: Clearing) -> None:
    """Floor, seats and charges as the engine has them."""
    if cleared.floors is not None and made.floor != cleared.floors[made.station - 1]:
        raise Disagreement(f'station {made.station}: a floor of {made.floor} is not the engine\'s')
    seated = sum(seat == made.station for seat in cleared.stations)
    if seated != sum(one.here for one in made.queue):
        raise Disagreement(f'station {made.station}: {seated} seated, and not all of them candidates')
    for one in made.queue:
        if one.here and one.charge != cleared.charges[one.guest - 1]:
            raise Disagreement(f'guest {one.guest}: a charge of {one.charge} is not the engine\'s')


def nth(k: int) -> str:
    """A number's place in a line.

    >>> nth(1), nth(12), nth(23)
    ('1st', '12th', '23rd')
    """
    return f'{k}' + ('th' if 10 < k % 100 < 14 else {1: 'st', 2: 'nd', 3: 'rd'}.get(k % 10, 'th'))


def plural(count: int, word: str) -> str:
    """A count with its word.

    >>> plural(1, 'bay'), plural(2000, 'bay')
    ('1 bay', '2,000 bays')
    """
    return f'{count:,} {word}' + ('' if count == 1 else 's')


def reason(seen: Round, guest: int, station: int) -> str:
    """What decided about a guest at a station, in one line.

    >>> from bay_market import Market
    >>> seen = look(Market([2, 6], [1, 1], [3, 3], [1, 2], [8, 0, 8, 9]))
    >>> reason(seen, 1, 1)
    'seated: 1st of 2 for 1 bay; pays 24, the floor 24, set by guest 2'
    >>> reason(seen, 2, 1)
    'outbid: 2nd of 2 for 1 bay; the last place went to guest 1 with 24, equal, with the lower ticket 1'
    >>> reason(seen, 2, 2)
    'station not open: its ask 6 is not below the cut 6'
    """
    market, cut, at = seen.market, seen.clearing.cut, seen.stations[station - 1]
    code = seen.codes[(guest - 1) * market.m + station - 1]
    if code == NO_BID:
        return CODES[code]
    if code == NOT_OPEN:
        return f'{CODES[code]}: its ask {at.ask:,} is not below the cut {cut:,}'
    if code == BELOW_CUT:
        return f'{CODES[code]}: {market.row(guest)[station - 1]:,} is below {cut:,}'
    one = next(one for one in at.queue if one.guest == guest)
    return _of_candidate(seen, at, one)


def _of_candidate(seen: Round, at: Station, one: Candidate) -> str:
    place = f'{nth(one.rank)} of {len(at.queue)} for {plural(at.bays, "bay")}'
    if one.here:
        return f'seated: {place}; pays {one.charge:,}, {_cost(seen, at, one)}'
    if seen.clearing.quiet:
        return f'turned away: {place}' if one.away else f'passed over: seated at station {one.seat} already'
    if one.held:
        return f'place held, sits at station {one.seat}: {place}; would pay {one.charge:,}, {_cost(seen, at, one)}'
    last = [other for other in at.queue if other.held][-1]
    ticket = seen.market.tickets[last.guest - 1]
    tie = f', equal, with the lower ticket {ticket}' if last.total == one.total else ''
    return f'outbid: {place}; the last place went to guest {last.guest} with {last.total:,}{tie}'


def _cost(seen: Round, at: Station, one: Candidate) -> str:
    if at.first and at.floor > one.least:
        return f'the floor {at.floor:,}, set by guest {at.first.guest}'
    return f'cut {seen.clearing.cut:,} x {seen.market.amounts[one.guest - 1]:,} kWh'
