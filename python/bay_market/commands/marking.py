"""bay mark: clearings that firms and students hand in."""
from __future__ import annotations

import os
from argparse import Namespace
from typing import Dict, List, NamedTuple, Tuple

from ..clearing import clear
from ..market import Market
from ..marking import Mark, marked
from ..refusal import Refused
from ..submission import NAMES, Submission, Unreadable, of_folder, read_submission
from .files import InFile, in_file, load, path, read
from .output import Cell, Failed, err, lines, table


class Marked(NamedTuple):
    """A submission with its mark, or the word and the reason that stand for one."""
    name: str
    word: str
    status: int
    mark: Mark = Mark(False)
    reason: str = ''


def do_mark(args: Namespace) -> int:
    """Right, or wrong with the first wrong number; of several submissions a table."""
    if [*args.submission, args.market].count('-') > 1:
        raise Failed(2, 'standard input is one file: - is given twice (bay mark --help)')
    name, data, market = load(args.market)
    in_file(name, data, lambda: clear(market, args.rule))
    if len(args.submission) > 1:
        return _table([_one(name, market, args.rule) for name in args.submission], args.brief)
    given = args.submission[0]
    try:
        found = _mark(given, market, args.rule)
    except Unreadable as error:
        lines(['wrong'])
        err(str(error))
        return 1
    except Refused as refused:                          # the market was accepted: it is what is handed in
        raise InFile(refused, given) from None
    lines(['right' if found.right else 'wrong'])
    if found.first is not None and not args.brief:
        lines([f'first: {found.first.place}', f'- {found.first.handed_in}', f'+ {found.first.right}', f'  {found.why}',
               'differ: ' + ', '.join(f'{what} {count:,}' for what, count in found.differ.items())])
    return 0 if found.right else 1


def _mark(name: str, market: Market, rule: int) -> Mark:
    return marked(market, handed_in(name, market), rule)


def handed_in(name: str, market: Market) -> Submission:
    """What a file, a folder or standard input hands in."""
    if name != '-' and os.path.isdir(path(name)):
        return of_folder(_files(name))
    shown, data = read(name)
    return read_submission(shown, data, market.n, market.m)


def _files(folder: str) -> Dict[str, Tuple[str, bytes]]:
    """The file of each list and number, with its bytes."""
    found = {}
    for name in NAMES:
        there = [file for file in (os.path.join(folder, name + end) for end in ('', '.txt', '.csv'))
                 if os.path.exists(path(file))]
        if not there:
            raise Unreadable(f'{folder}: no file {name}, {name}.txt or {name}.csv')
        if there[1:]:
            raise Unreadable(f'{folder}: {there[0]} and {there[1]} are both there')
        found[name] = read(there[0])
    return found


def _one(name: str, market: Market, rule: int) -> Marked:
    """The mark of one of several: whatever is wrong with it, the next one is marked too."""
    try:
        found = _mark(name, market, rule)
        return Marked(name, 'right' if found.right else 'wrong', 0 if found.right else 1, found)
    except Unreadable as error:
        return Marked(name, 'wrong', 1, reason=str(error))
    except Refused as refused:
        return Marked(name, f'refused {refused.number}', 1, reason=f'{refused.where}: {refused.where.detail}')
    except Failed as failed:
        return Marked(name, 'not read', failed.status, reason=str(failed))


def _table(found: List[Marked], brief: bool) -> int:
    heads = ('submission', 'mark') if brief else ('submission', 'mark', 'first', 'handed in', 'right', 'why')
    table(heads, [_row(one)[:len(heads)] for one in found], left=('submission', 'mark', 'first', 'why'))
    return max(one.status for one in found)


def _row(one: Marked) -> List[Cell]:
    first = one.mark.first
    if first is None:
        return [one.name, one.word, '', '', '', one.reason]
    return [one.name, one.word, first.place, first.handed_in, first.right, one.mark.why]
