"""The report of a course: what was played, round by round, as JSON. There is no time in it: the same seed and the same
bidders give the same bytes."""
from __future__ import annotations

import json
from typing import Any, Dict, List, NamedTuple, Optional, Type, TypeVar

from ._c import MAX_GUESTS, MAX_STATIONS
from .bidder import Left
from .market import Market
from .protocol import FORM, LATE, OK, OUT, WRONG
from .refusal import Refused
from .submission import in_ascii

Kind = TypeVar('Kind')


class NoReport(Exception):
    """What is no report of a course."""


class Settings(NamedTuple):
    """What was asked for: `market` is the market of every round, where one was given."""
    seed: str
    rounds: int
    guests: int
    stations: int
    rule: int
    quiet: bool
    market: Optional[Market] = None


class Entry(NamedTuple):
    """What a bidder did in a round and what it gained, beside what the truth would have gained."""
    name: str
    guest: int
    worths: List[int]
    answer: str
    said: str
    station: int
    charge: int
    gain: int
    truth: int


class Played(NamedTuple):
    """A round: the market with the bids as they were made."""
    number: int
    market: Market
    entries: List[Entry]


class Seen(NamedTuple):
    """A bidder: its program's name and SHA-256, and why it is out."""
    name: str
    program: str
    sha256: str
    left: Optional[Left]


class Totals(NamedTuple):
    """A bidder over all rounds."""
    answered: int
    late: int
    wrong: int
    seated: int
    gain: int
    truth: int

    @property
    def by_lying(self) -> int:
        """What it gained beyond the truth.

        >>> Totals(3, 0, 0, 1, 20, 50).by_lying
        -30
        """
        return self.gain - self.truth

    def as_dict(self) -> Dict[str, int]:
        """The totals as a report has them.

        >>> Totals(3, 0, 0, 1, 20, 50).as_dict()['by_lying']
        -30
        """
        return {**self._asdict(), 'by_lying': self.by_lying}


class Report(NamedTuple):
    """A course that was run."""
    settings: Settings
    bidders: List[Seen]
    played: List[Played]

    def totals(self, at: int) -> Totals:
        """The totals of the bidder that stands there.

        >>> entry = Entry('a', 1, [5], 'ok', '', 1, 10, 5, 5)
        >>> market = Market([2], [1], [3], [1], [8])
        >>> Report(Settings('1', 1, 1, 1, 1, False), [], [Played(1, market, [entry])]).totals(0)
        Totals(answered=1, late=0, wrong=0, seated=1, gain=5, truth=5)
        """
        entries = [one.entries[at] for one in self.played]
        states = [entry.answer for entry in entries]
        seated = sum(bool(one.station) for one in entries)
        return Totals(states.count(OK), states.count(LATE), states.count(WRONG), seated,
                      sum(one.gain for one in entries), sum(one.truth for one in entries))

    def to_json(self) -> bytes:
        """The report as a file.

        >>> Report(Settings('1', 0, 1, 1, 1, False), [], []).to_json()[:34]
        b'{"course": 1, "seed": "1", "rounds'
        """
        held = self.settings
        out = {'course': FORM, 'seed': held.seed, 'rounds': held.rounds, 'guests': held.guests,
               'stations': held.stations, 'rule': held.rule, 'round': 'quiet' if held.quiet else 'truthful',
               'market': held.market.to_sheet().hex() if held.market is not None else None,
               'bidders': [self._bidder(at) for at in range(len(self.bidders))],
               'played': [{'round': one.number, 'sheet': one.market.to_sheet().hex(),
                           'bidders': [entry._asdict() for entry in one.entries]} for one in self.played]}
        return json.dumps(out).encode() + b'\n'

    def _bidder(self, at: int) -> Dict[str, Any]:
        seen, left = self.bidders[at], None
        if seen.left is not None:
            left = {'round': seen.left.number, 'why': seen.left.why, 'words': seen.left.words}
        return {'name': seen.name, 'program': seen.program, 'sha256': seen.sha256, 'out': left,
                **self.totals(at).as_dict()}


class Held(NamedTuple):
    """A report as it was read, and the totals that stand in it."""
    report: Report
    totals: List[Dict[str, int]]


def of_json(data: bytes) -> Held:
    """Reads a report.

    >>> of_json(b'{"course": 1}')
    Traceback (most recent call last):
    bay_market.report.NoReport: "round" is not there
    """
    try:
        found = json.loads(data)
    except (ValueError, RecursionError) as error:
        raise NoReport(f'not JSON: {error}' if isinstance(error, json.JSONDecodeError) else 'not JSON') from None
    if not isinstance(found, dict):
        raise NoReport('no object')
    form = _of(found, 'course', int)
    if form != FORM:
        raise NoReport(f'its form is {form}, this bay knows form {FORM}')
    settings, bidders = _settings(found), [_seen(one) for one in _objects(found, 'bidders')]
    if len(bidders) > settings.guests:
        raise NoReport(f'{len(bidders)} bidders and {settings.guests} guests')
    totals = [{name: _of(one, name, int) for name in (*Totals._fields, 'by_lying')}
              for one in _objects(found, 'bidders')]
    return Held(Report(settings, bidders, [_played(one) for one in _objects(found, 'played')]), totals)


def _of(held: Dict[str, Any], key: str, kind: Type[Kind]) -> Kind:
    if key not in held:
        raise NoReport(f'"{key}" is not there')
    value = held[key]
    if not isinstance(value, kind) or isinstance(value, bool):
        raise NoReport(f'"{key}" is not what it should be')
    return value


def _text(held: Dict[str, Any], key: str) -> str:
    """Words as a report has them, which may be shown."""
    value = _of(held, key, str)
    if in_ascii(value, len(value)) != value:
        raise NoReport(f'"{key}" has signs that no report has')
    return value


def _seed(held: Dict[str, Any]) -> str:
    value = _of(held, 'seed', str)
    try:
        value.encode('utf-8', 'surrogateescape')
    except UnicodeEncodeError:
        raise NoReport('"seed" is no text') from None
    return value


def _objects(held: Dict[str, Any], key: str) -> List[Dict[str, Any]]:
    found = _of(held, key, list)
    if not all(isinstance(one, dict) for one in found):
        raise NoReport(f'"{key}" has something else than objects')
    return found


def _settings(held: Dict[str, Any]) -> Settings:
    kind = _of(held, 'round', str)
    out = Settings(_seed(held), _of(held, 'rounds', int), _of(held, 'guests', int),
                   _of(held, 'stations', int), _of(held, 'rule', int), kind == 'quiet')
    if kind not in ('quiet', 'truthful') or out.rule not in (1, 2):
        raise NoReport('"round" is quiet or truthful, "rule" is 1 or 2')
    if not (1 <= out.guests <= MAX_GUESTS and 1 <= out.stations <= MAX_STATIONS):
        raise NoReport(f'guests are 1 to {MAX_GUESTS}, stations 1 to {MAX_STATIONS}')
    if held.get('market') is None:
        return out
    market = _market(held, 'market')
    if (market.n, market.m) != (out.guests, out.stations):
        raise NoReport('its market has other counts of guests and stations')
    return out._replace(market=market)


def _market(held: Dict[str, Any], key: str) -> Market:
    try:
        market = Market.from_sheet(bytes.fromhex(_of(held, key, str)))
        market.to_sheet()                       # refuses what would not clear
        return market
    except ValueError:
        raise NoReport(f'"{key}" is no sheet') from None
    except Refused as refused:
        raise NoReport(f'"{key}": {refused}') from None


def _seen(held: Dict[str, Any]) -> Seen:
    left = None
    if held.get('out') is not None:
        why = _of(held, 'out', dict)
        left = Left(_of(why, 'round', int), _text(why, 'why'), _text(why, 'words'))
    return Seen(_text(held, 'name'), _of(held, 'program', str), _of(held, 'sha256', str), left)


def _played(held: Dict[str, Any]) -> Played:
    out = Played(_of(held, 'round', int), _market(held, 'sheet'), [_entry(one) for one in _objects(held, 'bidders')])
    if not all(1 <= entry.guest <= out.market.n for entry in out.entries):
        raise NoReport('"guest" is none of the round')
    return out


def _entry(held: Dict[str, Any]) -> Entry:
    worths = _of(held, 'worths', list)
    if not all(isinstance(worth, int) for worth in worths):
        raise NoReport('"worths" has something else than whole numbers')
    answer = _of(held, 'answer', str)
    if answer not in (OK, LATE, WRONG, OUT):
        raise NoReport('"answer" is none of ok, late, wrong, out')
    return Entry(_text(held, 'name'), _of(held, 'guest', int), worths, answer, _text(held, 'said'),
                 *(_of(held, name, int) for name in ('station', 'charge', 'gain', 'truth')))
