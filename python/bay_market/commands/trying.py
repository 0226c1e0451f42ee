"""bay try, bay menu: another row of a guest's, and its price list."""
from __future__ import annotations

from argparse import Namespace
from typing import Dict, List, Optional, Tuple

from .._c import MAX_PRICE
from ..refusal import Refused
from ..trying import menu, what_if
from .files import InFile, in_file, load
from .output import Cell, Failed, as_json, lines, listed, table


def numbers(text: str, what: str) -> List[int]:
    """A row of the command line; a missing number is no bid.

    >>> numbers('0,5,,4', 'ROW')
    [0, 5, 0, 4]
    """
    values = []
    for k, part in enumerate(text.split(','), 1):
        part = part.strip() or '0'
        if not part.isascii() or not part.isdigit() or len(part) > 10 or int(part) > 2 ** 32 - 1:
            raise Failed(2, f'{what}, number {k}: {ascii(part[:20])} is not a whole number of 32 bits')
        values.append(int(part))
    return values


def do_try(args: Namespace) -> int:
    """Both gains of a guest, and who else moves."""
    row = numbers(args.row, 'ROW')
    worths = numbers(args.worths, '--worths') if args.worths is not None else None
    name, data, market = load(args.file)
    in_file(name, data, lambda: menu(market, args.guest, args.rule))     # refuses a guest who is not there
    try:
        tried = what_if(market, args.guest, market.row(args.guest) if worths is None else worths, row, args.rule)
    except Refused as refused:                  # the market was accepted: it is the row, or the worths
        raise InFile(refused) from None
    moved = [[k for k, change in enumerate(tried.changes, 1) if change == kind] for kind in (1, 2)]
    if args.json:
        as_json({'guest': args.guest, 'rule': args.rule, 'first': _outcome(tried.first_gain, tried.first_seat),
                 'second': _outcome(tried.second_gain, tried.second_seat), 'becomes_seated': moved[0],
                 'becomes_unseated': moved[1], 'changes': tried.changes})
        return 0
    for what, gain, (station, charge) in (('as it stands', tried.first_gain, tried.first_seat),
                                          ('with this row', tried.second_gain, tried.second_seat)):
        seat = f'station {station} charge {charge}' if station else 'no seat'
        lines([f'{what}: {seat} gain {gain}'])
    for word, who in zip(('seated', 'unseated'), moved):
        lines([f'becomes {word}: {listed(list(map(str, who)), "nobody else")}'])
    return 0


def _outcome(gain: int, seat: Tuple[int, int]) -> Dict[str, int]:
    return {'gain': gain, 'station': seat[0], 'charge': seat[1]}


def do_menu(args: Namespace) -> int:
    """What a place at each station costs a guest, whatever it bids."""
    name, data, market = load(args.file)
    items = in_file(name, data, lambda: menu(market, args.guest, args.rule))
    amount = market.amounts[args.guest - 1]
    if args.json:
        bars, prices = ([item and item[k] for item in items] for k in (0, 1))      # null where a station is not open
        as_json({'guest': args.guest, 'rule': args.rule, 'bars': bars, 'prices': prices})
        return 0
    lines([f'guest {args.guest}, {amount:,} kWh: what a place costs it, whatever it bids', ''])
    table(('station', 'charge', 'per kWh', 'least bid', 'its bid', 'state'),
          [_row(station, item, bid, amount)
           for station, (item, bid) in enumerate(zip(items, market.row(args.guest)), 1)], left=['state'])
    return 0


def _row(station: int, item: Optional[Tuple[int, int]], bid: int, amount: int) -> List[Cell]:
    if item is None:
        return [station, None, None, None, bid or None, 'not open']
    bar, price = item
    least = -(-bar // amount)
    state = 'out of reach' if least > MAX_PRICE else 'place held' if bid * amount >= bar else 'no place'
    return [station, price, f'{price / amount:,.2f}', least, bid or None, state]
