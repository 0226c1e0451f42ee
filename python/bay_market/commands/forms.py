"""bay convert, bay tidy, bay place, bay join: markets from one form into another."""
from __future__ import annotations

from argparse import Namespace
from typing import List, Optional, Tuple

from ..market import Market, is_sheet
from ..refusal import Refused
from .files import READ, InFile, in_file, in_form, is_csv, load, read, write
from .output import Failed, err, lines

PLACES = ('wanted are lines of asks, of bays, of the stations\' first and of their second coordinates, then for each '
          'guest ticket, kWh, price, fall and both coordinates')


def _csv(args: Namespace) -> bool:
    return is_csv(args.out) if args.to is None else bool(args.to == 'csv')


def do_convert(args: Namespace) -> int:
    """A market as a sheet or as CSV, with labels where a person is to read it."""
    csv = _csv(args)
    if args.labels and not csv:
        raise Failed(2, '--labels is for CSV: let OUT end in .csv, or give --to csv (bay convert --help)')
    name, data, market = load(args.file)
    made = in_file(name, data, lambda: in_form(market, csv))
    write(args.out, labelled(market) if args.labels else made)
    return 0


def labelled(market: Market) -> bytes:
    """A market as CSV for a spreadsheet; bay tidy reads it back.

    >>> labelled(Market([2, 6], [1, 1], [3], [1], [8, 0])).decode().split()
    [',,station', '1,station', '2', 'ask,,2,6', 'bays,,1,1', 'ticket,kWh,bid,bid', '1,3,8,']
    """
    rows = [['', '', *(f'station {k}' for k in range(1, market.m + 1))], ['ask', '', *map(str, market.asks)],
            ['bays', '', *map(str, market.bays)], ['ticket', 'kWh', *['bid'] * market.m]]
    for ticket, amount, row in zip(market.tickets, market.amounts, market.rows()):
        rows.append([str(ticket), str(amount), *(str(bid) if bid else '' for bid in row)])
    return ''.join(','.join(row) + '\r\n' for row in rows).encode()


def do_tidy(args: Namespace) -> int:
    """A spreadsheet's export as a strict CSV; a pipe gets a market or nothing."""
    from ..tidy import UTF16, Untidy, tidy
    name, data = read(args.file)
    if len(data) == READ:
        raise Failed(2, f'{name} is longer than any market')
    if data and is_sheet(data) and data[:2] not in UTF16:
        raise Failed(2, f'{name} is no text: if it is a sheet, bay convert makes a CSV of it')
    try:
        done = tidy(data)
    except Untidy as error:
        if args.out != '-':
            lines([f'refused {error.number}'])
        err(f'{name}: {error}')
        return 1
    if args.names is not None and not any(done.names):
        raise Failed(2, f'{name} has no names in front of the tickets: nothing is written')
    write(args.out, Market.from_csv(done.text).to_sheet() if args.out.lower().endswith('.sheet') else done.text)
    if args.names is not None:
        write(args.names, ''.join(f'{one}\n' for one in done.names).encode('utf-8', 'replace'))
    for note in done.notes or ['nothing to change']:
        err(f'{name}: {note}')
    if any(done.names):
        err(f'{name}: ' + ('--names NAMES keeps the names' if args.names is None else f'names kept in {args.names}'))
    return 0


def do_place(args: Namespace) -> int:
    """A market from parking places."""
    name, data = read(args.file)
    asks, bays, firsts, seconds, *guests = _places(name, data)
    tickets, amounts, prices, falls, across, along = zip(*guests) if guests else ((),) * 6
    try:
        market = Market.from_places(asks, bays, amounts, tickets, prices, falls, list(zip(across, along)),
                                    list(zip(firsts, seconds)))
        made = in_form(market, _csv(args))
    except ValueError as error:
        raise Failed(2, f'{name}: {error}') from None
    except Refused as refused:
        spot = _place_spot(refused, [firsts, seconds], [prices, falls, across, along])
        where = refused.where if spot is None else refused.where._replace(line=spot[0], field=spot[1])
        raise InFile(Refused(refused.number, where), name) from None
    write(args.out, made)
    return 0


def _places(name: str, data: bytes) -> List[List[int]]:
    """The lines of numbers, each as long as it has to be."""
    rows: List[List[int]] = []
    text = data.decode('ascii', 'replace').replace('\r\n', '\n')
    for number, line in enumerate(text[:-1].split('\n') if text.endswith('\n') else text.split('\n'), 1):
        row = line.split(',')
        for field, cell in enumerate(row, 1):
            if not cell.isdigit() or not cell.isascii() or len(cell) > 10 or int(cell) > 2 ** 32 - 1:
                raise Failed(2, f'{name}, line {number}, field {field}: {ascii(cell[:20])} is not a whole number of 32 '
                                f'bits; {PLACES}')
        wanted = 6 if number > 4 else len(rows[0]) if rows else len(row)
        if len(row) != wanted:
            raise Failed(2, f'{name}, line {number}: {len(row)} fields, wanted {wanted}; {PLACES}')
        rows.append([int(cell) for cell in row])
    if len(rows) < 4:
        raise Failed(2, f'{name}: it ends after line {len(rows)}; {PLACES}')
    return rows


def _place_spot(refused: Refused, stations: List[List[int]],
                guests: List[Tuple[int, ...]]) -> Optional[Tuple[int, int]]:
    """Line and field of PLACES at which a refusal's fault stands."""
    from .._c import MAX_CELL, MAX_PRICE
    number, where = refused.number, refused.where
    if number in (6, 7) and where.station:
        return number - 5, where.station
    if number in (8, 15) and where.guest:
        return where.guest + 4, 2 if number == 8 else 1
    if number == 16 and where.station:
        return 3 if stations[0][where.station - 1] > MAX_CELL else 4, where.station
    if number in (16, 17) and where.guest:
        column = number - 16
        one, two = (0, 1) if number == 17 else (2, 3)
        top = MAX_PRICE if column else MAX_CELL
        return where.guest + 4, 3 + (one if guests[one][where.guest - 1] > top else two)
    return None


def do_join(args: Namespace) -> int:
    """Two gates' markets as one, and which guests became which."""
    from ..gates import join
    if args.first == '-' == args.second:
        raise Failed(2, 'standard input is one gate, not both (bay join --help)')
    gates = [load(args.first), load(args.second)]
    (north, first), (south, second) = ((name, market) for name, _, market in gates)
    try:
        joined = join(first, second)
    except Refused as refused:
        raise _at_gate(refused, gates) from None
    write(args.out, in_form(joined, _csv(args)))
    err(f'{_guests(first.n, 0)} of {north}, {_guests(second.n, first.n)} of {south}')
    return 0


def _at_gate(refused: Refused, gates: List[Tuple[str, bytes, Market]]) -> InFile:
    """The refusal with the file of the gate that it is about, or with both."""
    if refused.where.gate in ('first', 'second'):
        name, data, _ = gates[refused.where.gate == 'second']
        return InFile(refused, name, data)
    return InFile(refused, f'{gates[0][0]} and {gates[1][0]}')


def _guests(count: int, before: int) -> str:
    """How a gate's guests are numbered in the joined market.

    >>> _guests(2, 3)
    'guests 4 to 5 are guests 1 to 2'
    """
    if count == 0:
        return 'there are no guests'
    if count == 1:
        return f'guest {before + 1} is guest 1'
    return f'guests {before + 1} to {before + count} are guests 1 to {count}'
