"""Marking a clearing that is handed in. The engine says right or wrong; the rest is a help for whoever handed it in:
the first wrong number in the order of working, what it should be, and why."""
from __future__ import annotations

from typing import Any, Callable, Dict, Iterator, List, NamedTuple, Optional, Tuple, cast

from .clearing import HANDED_IN, Clearing, clear, mark
from .lending import FORMS, SIZES, fits
from .market import Market
from .submission import Submission
from .words import Disagreement, Round, look, nth, plural, reason

FEW = 10                # asks that are listed in a line
WIDTHS = {**{name: SIZES[FORMS[name]] for name in HANDED_IN}, 'cut': 4, 'margin': 8}     # bytes of a number


class Difference(NamedTuple):
    """A number of a submission that is wrong."""
    name: str
    guest: Optional[int]
    station: Optional[int]
    handed_in: int
    right: int

    @property
    def place(self) -> str:
        """Which number it is.

        >>> Difference('places', 3, 2, 0, 1).place
        'places, guest 3, station 2'
        """
        return ', '.join([self.name, *(f'{word} {k}' for word, k in (('guest', self.guest), ('station', self.station))
                                       if k is not None)])


class Mark(NamedTuple):
    """How a submission is marked: right, or the first wrong number with the reason of the right one, and how many
    numbers of each kind are wrong."""
    right: bool
    first: Optional[Difference] = None
    why: str = ''
    differ: Dict[str, int] = {}


def marked(market: Market, handed: Submission, rule: int = 1) -> Mark:
    """Marks a submission; a list of another length is refused with 10.

    >>> from bay_market import Market
    >>> market = Market([2, 6], [1, 1], [3, 3], [1, 2], [8, 0, 8, 0])
    >>> handed = Submission(6, 6, [1, 0], [21, 0], [3, 0], [18, 0], [1, 0, 0, 0], [24, 0])
    >>> found = marked(market, handed)
    >>> found.first.place, found.first.handed_in, found.first.right, found.why
    ('charges, guest 1', 21, 24, 'seated: 1st of 2 for 1 bay; pays 24, the floor 24, set by guest 2')
    >>> marked(market, handed._replace(charges=[24, 0]))
    Mark(right=True, first=None, why='', differ={})
    """
    lent = _lendable(handed)
    right = mark(market, lent, rule) and lent[2:] == _clearing(handed)[2:]
    right_one = clear(market, rule, marked=True)
    differences = [one for one in numbers(market, handed, right_one) if one.handed_in != one.right]
    if right != (not differences):
        raise Disagreement('the mark is not what the numbers say')
    if right:
        return Mark(True)
    counts: Dict[str, int] = {}
    for one in differences:
        counts[one.name] = counts.get(one.name, 0) + 1
    return Mark(False, differences[0], why(look(market, rule), differences[0]), counts)


def _clearing(handed: Submission) -> Clearing:
    return Clearing(0, False, handed.cut, handed.margin, handed.stations, handed.charges, handed.sold, handed.paid,
                    cast(Any, handed.places), handed.floors)


def _lendable(handed: Submission) -> Clearing:
    """The submission with 0 for each number that is too wide to be lent: a list's length is looked at all the same."""
    def fitting(name: str, value: int) -> int:
        return value if fits(value, 256 ** WIDTHS[name] - 1) else 0
    held = handed._asdict()
    lists = {name: [fitting(name, value) for value in held[name]] for name in HANDED_IN}
    return _clearing(Submission(fitting('cut', handed.cut), fitting('margin', handed.margin), **lists))


def numbers(market: Market, handed: Submission, right: Clearing) -> Iterator[Difference]:
    """Every number that is handed in beside the right one, in the order of working.

    >>> from bay_market import Market
    >>> market = Market([2], [1], [], [], [])
    >>> [one.name for one in numbers(market, Submission(2, 0, [], [], [0], [0], [], [0]), clear(market, marked=True))]
    ['cut', 'floors', 'sold', 'paid', 'margin']
    """
    m = market.m
    yield Difference('cut', None, None, handed.cut, right.cut)
    for at, place in enumerate(held for row in right.places or () for held in row):
        yield Difference('places', at // m + 1, at % m + 1, handed.places[at], place)
    for at in range(m):
        yield Difference('floors', None, at + 1, handed.floors[at], (right.floors or ())[at])
    for at in range(market.n):
        yield Difference('stations', at + 1, None, handed.stations[at], right.stations[at])
    for at in range(market.n):
        yield Difference('charges', at + 1, None, handed.charges[at], right.charges[at])
    for at in range(m):
        yield Difference('sold', None, at + 1, handed.sold[at], right.sold[at])
    for at in range(m):
        yield Difference('paid', None, at + 1, handed.paid[at], right.paid[at])
    yield Difference('margin', None, None, handed.margin, right.margin)


def why(seen: Round, one: Difference) -> str:
    """Why the right number is right, in one line.

    >>> from bay_market import Market
    >>> seen = look(Market([2, 6], [1, 1], [3, 3], [1, 2], [8, 0, 8, 0]))
    >>> why(seen, Difference('cut', None, None, 2, 6))
    'rule 1 takes the 2nd of the 2 asks in rising order: 2, 6'
    >>> why(seen, Difference('floors', None, 1, 0, 24))
    '2 candidates for 1 bay: the first without a place is guest 2, with 24'
    """
    reasons: Dict[str, Callable[[Round, int, int], str]] = {
        'cut': _cut, 'places': reason, 'floors': _floor, 'stations': _seat, 'charges': _charge, 'sold': _sold,
        'paid': _paid, 'margin': _margin}
    return reasons[one.name](seen, one.guest or 0, one.station or 0)


def _cut(seen: Round, guest: int, station: int) -> str:
    m, rule = seen.market.m, seen.clearing.rule
    position = (m + 2) // 2 if rule == 1 else 2 * m // 3 + 1
    asks = ': ' + ', '.join(f'{ask:,}' for ask in sorted(seen.market.asks)) if m <= FEW else ''
    return f'rule {rule} takes the {nth(position)} of the {m} asks in rising order{asks}'


def _floor(seen: Round, guest: int, station: int) -> str:
    at = seen.stations[station - 1]
    if not at.open:
        return f'the station is not open: its ask {at.ask:,} is not below the cut {seen.clearing.cut:,}'
    line = f'{plural(len(at.queue), "candidate")} for {plural(at.bays, "bay")}: '
    first = at.first
    return line + (f'the first without a place is guest {first.guest}, with {first.total:,}' if first
                   else 'nobody is without a place')


def _places(seen: Round, guest: int) -> List[Tuple[int, int]]:
    """Stations where a guest holds a place, with total less charge."""
    return [(at.station, one.total - one.charge) for at in seen.stations for one in at.queue
            if one.guest == guest and one.held]


def _seat(seen: Round, guest: int, station: int) -> str:
    held = _places(seen, guest)
    if not held:
        return 'it holds no place'
    keeps = ', '.join(f'{keep:,} at station {at}' for at, keep in held)
    most = max(keep for _, keep in held)
    tie = ': of equal ones the lower station' if [keep for _, keep in held].count(most) > 1 else ''
    return f'total less charge is {keeps}{tie}'


def _charge(seen: Round, guest: int, station: int) -> str:
    seat = seen.clearing.stations[guest - 1]
    return reason(seen, guest, seat) if seat else 'it has no seat'


def _sold(seen: Round, guest: int, station: int) -> str:
    amounts = [f"{seen.market.amounts[one.guest - 1]:,}" for one in seen.stations[station - 1].queue if one.here]
    return 'the kWh of those seated there: ' + ' + '.join(amounts) if amounts else 'nobody is seated there'


def _paid(seen: Round, guest: int, station: int) -> str:
    return f'cut {seen.clearing.cut:,} x {seen.clearing.sold[station - 1]:,} kWh sold'


def _margin(seen: Round, guest: int, station: int) -> str:
    return f'charges {sum(seen.clearing.charges):,} less payments {sum(seen.clearing.paid):,}'
