"""bay book, bay book new, bay book copy."""
from __future__ import annotations

import io
from argparse import Namespace
from contextlib import redirect_stdout, suppress
from typing import Any, Dict, List, Sequence

from .._c import MAX_DESKS
from ..refusal import Refused
from ..store import Book, Moved, Verified, copy
from ..store.journal import Posting, Refusal
from ..words import plural
from .books import ending, opened, place
from .files import InFile
from .output import Cell, Failed, as_json, lines, out, table
from .progress import Progress

TURNS = 5               # of reading a book without locks, beside desks that write


def do_book_new(args: Namespace) -> int:
    """Makes an empty book."""
    try:
        with ending():
            Book.new(place(args.book), args.guests, args.stations).close()
    except Refused as refused:
        raise InFile(refused, args.book) from None
    if args.json:
        as_json({'book': args.book, 'guests': args.guests, 'stations': args.stations, 'desks': MAX_DESKS})
    else:
        lines([f'made {args.book}: {plural(args.guests, "guest")}, {plural(args.stations, "station")}, '
               f'{plural(MAX_DESKS, "desk")}'])
    return 0


def do_book_copy(args: Namespace) -> int:
    """A backup, a move, or a raise of an older form."""
    progress = Progress('copying', 'postings')
    with ending():
        try:
            found = copy(place(args.book), place(args.to), progress)
        finally:
            progress.end()
    if args.json:
        as_json({'copied': True, 'book': args.book, 'to': args.to, 'postings': found.postings,
                 'refusals': found.refusals, 'sum': found.sum})
    else:
        lines([f'copied {args.book} to {args.to}: {_counted(found)}', f'sum {found.sum}'])
    return 0


def _counted(found: Verified) -> str:
    return f'{plural(found.postings, "posting")}, {plural(found.refusals, "refusal")}'


def do_book(args: Namespace) -> int:
    """Accounts, statements, journal, or whether they agree."""
    asked = [word for word in ('guest', 'station', 'desk') if getattr(args, word) is not None]
    asked += [word for word in ('verify', 'refusals', 'journal') if getattr(args, word)]
    if len(asked) > 1:
        raise Failed(2, f'--{asked[0]} or --{asked[1]}, not both (bay book --help)')
    for _ in range(TURNS):
        with opened(args.book, write=False) as book, suppress(Moved):
            if not book.store.frozen:
                return _answer(book, asked, args)
            held = io.StringIO()
            with redirect_stdout(held):
                status = _answer(book, asked, args)
            out(held.getvalue())
            return status
    raise Failed(3, f'{args.book} is written all the time, so that it cannot be read as one: try again')


def _answer(book: Book, asked: List[str], args: Namespace) -> int:
    if asked == ['verify']:
        return _verify(book, args)
    with book.snapshot():
        {'guest': _guest, 'station': _station, 'desk': _desk, 'refusals': _refusals,
         'journal': _journal}.get(''.join(asked), _accounts)(book, args)
    return 0


def _verify(book: Book, args: Namespace) -> int:
    progress = Progress('verifying', 'postings')
    try:
        found = book.verify(progress)
    finally:
        progress.end()
    if args.json:
        as_json({'verified': not found.faults, **found._asdict()})
    elif found.faults:
        lines(['wrong', *found.faults])
    else:
        replayed = f'{plural(found.postings, "posting")} and {plural(found.replayed, "refusal")} replayed'
        lines(['verified', f'{replayed}; guests charged {found.charged:,} = stations paid {found.paid:,} + house '
               f'{found.house:,}', f'sum {found.sum}'])
    return 1 if found.faults else 0


def _accounts(book: Book, args: Namespace) -> None:
    state = book.state()
    ledger = state.ledger
    sold, paid = [[sale[k] for sale in ledger.stations] for k in (0, 1)]
    if args.json:
        as_json({'book': args.book, 'form': book.store.form, 'made': state.made, 'postings': state.entries,
                 'refusals': state.refusals, 'sum': state.sum.hex(), 'charged': ledger.guests, 'sold': sold,
                 'paid': paid, 'house': ledger.house, 'last': ledger.last})
        return
    size = f'{plural(state.guests, "guest")}, {plural(state.stations, "station")}'
    lines([f'{book.store.name}: {size}, made {state.made}',
           f'{plural(state.entries, "posting")}, {plural(state.refusals, "refusal")}; charged {sum(ledger.guests):,}, '
           f'paid {sum(paid):,}, house {ledger.house:,}', f'sum {state.sum.hex()}'])
    _table(('desk', 'last', 'next'), [(k, last, last + 1) for k, last in enumerate(ledger.last) if last])
    _table(('station', 'sold kWh', 'paid'), [(k, *sale) for k, sale in enumerate(ledger.stations, 1) if any(sale)])
    _table(('guest', 'charged'), [(k, account) for k, account in enumerate(ledger.guests, 1) if account])


def _table(heads: Sequence[str], rows: Sequence[Sequence[Cell]]) -> None:
    if rows:
        out('\n')
        table(heads, rows)


def _numbered(what: str, number: int, first: int, last: int) -> None:
    if not first <= number <= last:
        raise Failed(2, f'the book has no {what} {number}: {f"{first} to {last}" if last >= first else "none"}')


def _desk(book: Book, args: Namespace) -> None:
    last = book.ledger().last
    _numbered('desk', args.desk, 0, len(last) - 1)
    desk = {'desk': args.desk, 'last': last[args.desk], 'next': last[args.desk] + 1}
    if args.json:
        as_json(desk)
    else:
        lines([' '.join(f'{word} {number}' for word, number in desk.items())])


def _guest(book: Book, args: Namespace) -> None:
    from ..store.statement import of_guest
    _numbered('guest', args.guest, 1, book.state().guests)
    rows = list(of_guest(book, args.guest))
    if args.json:
        as_json({'guest': args.guest, 'lines': [{**_entry(row.posting), 'station': row.station, 'charge': row.charge,
                                                 'account': row.account} for row in rows]})
        return
    lines([f'guest {args.guest}'])
    table(('at', 'entry', 'desk', 'round', 'station', 'charge', 'account'),
          [(*_cells(row.posting), row.station, row.charge, row.account) for row in rows], left=['at'])


def _station(book: Book, args: Namespace) -> None:
    from ..store.statement import of_station
    _numbered('station', args.station, 1, book.state().stations)
    rows = list(of_station(book, args.station))
    if args.json:
        as_json({'station': args.station, 'lines': [{**_entry(row.posting), 'sold': row.sold, 'paid': row.paid,
                                                     'account': row.account} for row in rows]})
        return
    lines([f'station {args.station}'])
    table(('at', 'entry', 'desk', 'round', 'sold kWh', 'paid', 'account'),
          [(*_cells(row.posting), row.sold, row.paid, row.account) for row in rows], left=['at'])


def _cells(posting: Posting) -> List[Cell]:
    return [str(posting.at), posting.entry, posting.desk, posting.round]


def _entry(posting: Posting) -> Dict[str, Any]:
    return {'at': str(posting.at), 'entry': posting.entry, 'desk': posting.desk, 'round': posting.round}


def _refusals(book: Book, args: Namespace) -> None:
    if args.json:
        for one in book.refusals():
            as_json({**one._asdict(), 'sheet': None if one.sheet is None else one.sheet.hex()})
        return
    table(('refusal', 'at', 'who', 'desk', 'round', 'rule', 'refused', 'place'), map(_refusal, book.refusals()),
          left=['at', 'who', 'place'])


def _refusal(one: Refusal) -> List[Cell]:
    return [one.refusal, one.at, one.who, one.desk, one.round, one.rule, one.number, one.place]


def _journal(book: Book, args: Namespace) -> None:
    if args.json:
        for one in book.postings():
            as_json({**one._asdict(), 'sheet': one.sheet.hex(), 'sum': one.sum.hex()})
        return
    table(('entry', 'at', 'who', 'desk', 'round', 'rule', 'bytes', 'sum'),
          [(one.entry, one.at, one.who, one.desk, one.round, one.rule, len(one.sheet), one.sum.hex()[:16])
           for one in book.postings()], left=['at', 'who', 'sum'])
