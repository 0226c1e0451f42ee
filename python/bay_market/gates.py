"""Two gates, one market."""
from __future__ import annotations

from array import array

from ._library import lib
from .lending import lent
from .market import Market
from .refusal import Refused, Where
from .where import in_gates


def join(first: Market, second: Market) -> Market:
    """The markets of two gates with the same stations as one, the first gate's guests in front.

    >>> north, south = Market([2, 6], [1, 1], [3], [1], [8, 0]), Market([2, 6], [1, 1], [3], [2], [9, 0])
    >>> join(north, south).rows()
    [[8, 0], [9, 0]]
    >>> join(north, north)
    Traceback (most recent call last):
    bay_market.refusal.Refused: refused 21: ...: guest 1, gate second: ticket 1 is guest 1's at the first gate
    """
    n, m = first.n + second.n, first.m
    asks, bays = array('I', bytes(4 * m)), array('H', bytes(2 * m))
    amounts, tickets = array('H', bytes(2 * n)), array('I', bytes(4 * n))
    bids = array('I', bytes(4 * n * m))
    answer = lib.join(*first.lent, *second.lent, *lent(asks, bays, amounts, tickets, bids))
    if answer:
        raise Refused(answer, _where(answer, first, second))
    return Market(asks, bays, amounts, tickets, bids)


def _where(number: int, first: Market, second: Market) -> Where:
    """The place of a fault: the gate whose own market the engine refuses, or in both together."""
    for gate, market in (('first', first), ('second', second)):
        try:
            market.to_sheet()
        except Refused as refused:
            return refused.where._replace(gate=gate)
    return in_gates(number, first, second)
