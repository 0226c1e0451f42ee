"""bay clear, bay why, bay show."""
from __future__ import annotations

from argparse import Namespace
from typing import TYPE_CHECKING, Any, Dict, List, Optional

from .._c import CODES
from ..clearing import Clearing, Explanation, clear, explain
from ..market import Market
from .files import in_file, load, read
from .output import Cell, Failed, as_json, lines, out, table

if TYPE_CHECKING:
    from ..words import Station


def do_clear(args: Namespace) -> int:
    """The lines of ./clear."""
    if args.quiet and args.marked:
        raise Failed(2, 'places and floors are of a truthful round: --quiet or --marked, not both (bay clear --help)')
    name, data, market = load(args.file)
    cleared = in_file(name, data, lambda: clear(market, args.rule, args.quiet, args.marked))
    if args.json:
        as_json(cleared.as_dict())
    else:
        lines(cleared.lines())
    return 0


def do_why(args: Namespace) -> int:
    """The lines of ./clear --why, or one guest station by station."""
    name, data, market = load(args.file)
    told = in_file(name, data, lambda: explain(market, args.rule))
    if args.guest is not None:
        from ..trying import menu
        in_file(name, data, lambda: menu(market, args.guest, args.rule))     # refuses a guest who is not there
    if args.json:
        guests = range(1, market.n + 1) if args.guest is None else [args.guest]
        as_json({'rule': args.rule, 'guests': [_object(market, told, guest) for guest in guests]})
    elif args.guest is None:
        lines(told.lines())
    else:
        _guest(market, told, args.guest, args.rule)
    return 0


def _object(market: Market, told: Explanation, guest: int) -> Dict[str, Any]:
    station, reason = told.stations[guest - 1], told.reasons[guest - 1]
    codes = told.codes[(guest - 1) * market.m:guest * market.m]
    return {'guest': guest, 'station': station, 'charge': told.charges[guest - 1], 'reason': reason,
            'text': 'wins' if station else CODES[reason], 'codes': list(codes)}


def _guest(market: Market, told: Explanation, guest: int, rule: int) -> None:
    from ..words import look, reason
    seen = look(market, rule)
    amount, ticket = market.amounts[guest - 1], market.tickets[guest - 1]
    lines([told.lines()[guest - 1], f'{amount:,} kWh, ticket {ticket}, cut {seen.clearing.cut:,}', ''])
    table(('station', 'bid', 'total', 'what decided'),
          [(station, bid or None, bid * amount or None, reason(seen, guest, station))
           for station, bid in enumerate(market.row(guest), 1)], left=['what decided'])


def do_show(args: Namespace) -> int:
    """Facts, stations and guests as tables."""
    from ..words import look, plural
    name, data, market = load(args.file)
    seen = in_file(name, data, lambda: look(market, args.rule, args.quiet))
    names = _names(args.names, market) if args.names is not None else None
    cleared = seen.clearing
    open_, seated = sum(station.open for station in seen.stations), sum(map(bool, cleared.stations))
    lines([f'{"quiet" if args.quiet else "truthful"} round, rule {args.rule}: cut {cleared.cut:,}; {open_} of '
           f'{plural(market.m, "station")} open, {seated} of {plural(market.n, "guest")} seated',
           f'charged {sum(cleared.charges):,}, paid {sum(cleared.paid):,}, margin {cleared.margin:,}', ''])
    table(('station', 'ask', 'state', 'bays', 'candidates', 'floor', 'seated', 'sold kWh', 'paid'),
          [_station(at) for at in seen.stations], left=['state'])
    if market.n:
        out('\n')
        _guests(market, cleared, None if args.quiet else explain(market, args.rule), names)
    return 0


def _station(at: Station) -> List[Cell]:
    seated = sum(one.here for one in at.queue)
    rest: List[Cell] = [len(at.queue), at.floor or None, seated, at.sold, at.paid] if at.open else [None] * 5
    return [at.station, at.ask, 'open' if at.open else 'not open', at.bays, *rest]


def _guests(market: Market, cleared: Clearing, told: Optional[Explanation], names: Optional[List[str]]) -> None:
    heads = ['guest', 'ticket', 'kWh', 'station', 'bid', 'total', 'pays', 'keeps'] + (['why not'] if told else [])
    rows: List[List[Cell]] = []
    for k, (station, charge) in enumerate(cleared.seats):
        bid = market.row(k + 1)[station - 1] if station else 0
        total = bid * market.amounts[k]
        seat: List[Cell] = [station, bid, total, charge, total - charge] if station else [None] * 5
        why: List[Cell] = ['' if station else CODES[told.reasons[k]]] if told else []
        rows.append([k + 1, str(market.tickets[k]), market.amounts[k], *seat, *why])
    if names is not None:
        heads, rows = ['name', *heads], [[name, *row] for name, row in zip(names, rows)]
    table(heads, rows, left=['name', 'why not'])


def _names(path: str, market: Market) -> List[str]:
    """A name for each guest; what is no letter, digit or sign is shown as a question mark."""
    from ..words import plural
    name, data = read(path)
    found = data.decode('utf-8-sig', 'replace').replace('\r\n', '\n').split('\n')
    if found[-1] == '':
        found.pop()
    if len(found) != market.n:
        raise Failed(2, f'{name} has {plural(len(found), "line")}, the market {plural(market.n, "guest")}')
    return [''.join(sign if sign.isprintable() else '?' for sign in one) for one in found]
