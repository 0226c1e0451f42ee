"""The course: bidders against each other and against the truth. In each round every bidder is a guest of a market,
whose other guests tell the truth. Beside each gain stands what the truth would have gained in the same round: in a
truthful round no gain is above that, whatever the bidder says."""
from __future__ import annotations

import os
from contextlib import ExitStack
from typing import Callable, List, NamedTuple, Sequence

from .bidder import FIRST, Bidder, Program
from .clearing import Clearing, clear
from .drawn import Drawn, round_of
from .market import Market
from .protocol import OK, Answer, hello, question, result
from .report import Entry, Held, Played, Report, Seen, Settings
from .trying import what_if


class EngineWrong(Exception):
    """An answer of the engine that cannot be right, with the round's number, its market and what is wrong."""

    def __init__(self, number: int, market: Market, what: str) -> None:
        super().__init__(what)
        self.number, self.market = number, market


class Gains(NamedTuple):
    """What a guest gained by its bids, and what it would have gained by its worths against the same others."""
    gain: int
    truth: int


def gain_of(market: Market, cleared: Clearing, guest: int, worths: Sequence[int]) -> int:
    """Worth times amount less charge, and 0 without a seat.

    >>> market = Market([2, 6], [1, 1], [3, 3], [1, 2], [9, 0, 8, 0])
    >>> gain_of(market, clear(market), 1, [9, 0]), gain_of(market, clear(market), 2, [8, 0])
    (3, 0)
    """
    station, charge = cleared.seats[guest - 1]
    return worths[station - 1] * market.amounts[guest - 1] - charge if station else 0


def gains_of(market: Market, cleared: Clearing, guest: int, worths: Sequence[int], number: int = 1) -> Gains:
    """Both gains of a guest in a round that was cleared. In a truthful round the engine gives both at once; where these
    are not those of the clearing, or a false row gains more than the truth, it is wrong.

    >>> market = Market([2, 6], [1, 1], [3, 2], [1, 2], [9, 0, 14, 0])
    >>> gains_of(market, clear(market), 2, [10, 0])
    Gains(gain=-7, truth=0)
    """
    gain = gain_of(market, cleared, guest, worths)
    if cleared.quiet:
        told = market.with_row(guest, worths)
        return Gains(gain, gain_of(told, clear(told, cleared.rule, True), guest, worths))
    tried = what_if(market, guest, worths, worths, cleared.rule)
    if tried.first_gain != gain:
        raise EngineWrong(number, market, f'guest {guest} gains {gain} in the clearing and {tried.first_gain} where '
                          'its row is tried')
    if gain > tried.second_gain:
        raise EngineWrong(number, market, f'guest {guest} gains {gain}, and {tried.second_gain} by the truth, in a '
                          'truthful round')
    return Gains(gain, tried.second_gain)


def run(programs: Sequence[Program], settings: Settings, limit: float = 1.0, memory: int = 2048,
        tell: Callable[[int], None] = lambda done: None) -> Report:
    """Plays the rounds. Bidders are asked one after the other, so that none is late because others compute; the first
    answer may take ten seconds, each other one `limit`. Where the engine is found to be wrong, EngineWrong is raised.

    >>> script = 'while read w r x x x x x bids; do [ $w != round ] || echo bids $r $bids; done'
    >>> honest = Program('honest', ['sh', '-c', script])
    >>> market = Market([2, 6], [1, 1], [3], [1], [8, 0])
    >>> run([honest], Settings('1', 2, 1, 2, 1, False, market)).totals(0)
    Totals(answered=2, late=0, wrong=0, seated=2, gain=12, truth=12)
    """
    played: List[Played] = []
    with ExitStack() as held:
        bidders = [held.enter_context(Bidder(program, memory)) for program in programs]
        for bidder in bidders:
            bidder.say(hello(settings.rounds, settings.stations, settings.quiet, settings.rule), 1)
        for number in range(1, settings.rounds + 1):
            true = round_of(settings.seed, number, settings.guests, settings.stations, settings.market)
            played.append(_play(bidders, settings, number, true, max(limit, FIRST) if number == 1 else limit))
            tell(number)
    seen = [Seen(one.name, os.path.basename(one.program.file or one.program.words[0]), one.program.digest(), one.left)
            for one in bidders]
    return Report(settings, seen, played)


def _play(bidders: Sequence[Bidder], settings: Settings, number: int, true: Drawn, limit: float) -> Played:
    guests = true.order[:len(bidders)]
    answers = [_ask(bidder, number, true.market, guest, limit) for bidder, guest in zip(bidders, guests)]
    market = true.market
    for guest, answer in zip(guests, answers):
        market = market.with_row(guest, answer.row or [0] * market.m)
    cleared = clear(market, settings.rule, settings.quiet)
    entries = []
    for bidder, guest, answer in zip(bidders, guests, answers):
        entries.append(entry_of(bidder.name, guest, answer, true.market, market, cleared, number))
        bidder.say(result(number, entries[-1].station, entries[-1].charge, entries[-1].gain, cleared.cut), number)
    return Played(number, market, entries)


def _ask(bidder: Bidder, number: int, true: Market, guest: int, limit: float) -> Answer:
    bidder.say(question(number, true.amounts[guest - 1], true.tickets[guest - 1], true.row(guest)), number)
    return bidder.answer(number, true.m, limit)


def entry_of(name: str, guest: int, answer: Answer, true: Market, market: Market, cleared: Clearing,
             number: int) -> Entry:
    """What a round did for a bidder.

    >>> true, market = Market([2, 6], [1, 1], [3], [1], [8, 0]), Market([2, 6], [1, 1], [3], [1], [0, 0])
    >>> entry_of('a', 1, Answer('late'), true, market, clear(market), 1)[3:]
    ('late', '', 0, 0, 0, 6)
    """
    worths = true.row(guest)
    gains = gains_of(market, cleared, guest, worths, number)
    return Entry(name, guest, worths, answer.state, answer.said, *cleared.seats[guest - 1], *gains)


def check(held: Held) -> List[str]:
    """Draws and clears every round anew, and adds up; what is not as the report has it, in words.

    >>> check(Held(Report(Settings('1', 3, 2, 2, 1, False), [], []), []))
    ['3 rounds were asked for, 0 were played']
    """
    report, asked, faults = held.report, held.report.settings, []
    if len(report.played) != asked.rounds:
        faults.append(f'{asked.rounds} rounds were asked for, {len(report.played)} were played')
    for number, one in enumerate(report.played, 1):
        true = round_of(asked.seed, number, asked.guests, asked.stations, asked.market)
        faults += [f'round {number}: {fault}' for fault in _checked(report, number, one, true)]
    if not faults:
        faults = [f'{seen.name}: the totals are not those of the rounds'
                  for at, seen in enumerate(report.bidders) if report.totals(at).as_dict() != held.totals[at]]
    return faults


def _checked(report: Report, number: int, one: Played, true: Drawn) -> List[str]:
    names, guests = [seen.name for seen in report.bidders], true.order[:len(report.bidders)]
    if one.number != number or [entry.name for entry in one.entries] != names:
        return ['its number or its bidders are not those of the report']
    market = true.market
    for entry, guest in zip(one.entries, guests):
        made = one.market.row(guest) if entry.answer == OK and guest <= one.market.n else [0] * market.m
        market = market.with_row(guest, made) if len(made) == market.m else market
    if market != one.market:
        return ['its sheet is not that of the seed with the bids of the bidders']
    cleared = clear(market, report.settings.rule, report.settings.quiet)
    faults = []
    for entry, guest in zip(one.entries, guests):
        want = entry_of(entry.name, guest, Answer(entry.answer, None, entry.said), true.market, market, cleared, number)
        faults += [f'{entry.name}: {name} is {has}, by the engine {is_}'
                   for name, has, is_ in zip(Entry._fields, entry, want) if has != is_]
    return faults
