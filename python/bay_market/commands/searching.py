"""bay search."""
from __future__ import annotations

from argparse import Namespace
from typing import List, Sequence, Tuple

from ..refusal import Refused
from ..search import Outcome, Search, Tally
from ..trying import menu
from ..workers import WorkerFailed, cores
from .files import InFile, in_file, load
from .output import Failed, lines
from .progress import Progress
from .signals import ctrl_c_raises, end_by_ctrl_c
from .trying import numbers


def do_search(args: Namespace) -> int:
    """The best of many reports; none pays in a truthful round."""
    worths = numbers(args.worths, '--worths') if args.worths is not None else None
    name, data, market = load(args.file)
    in_file(name, data, lambda: menu(market, args.guest, args.rule))     # refuses a guest who is not there
    try:
        search = Search(market, args.guest, worths, args.rule, args.quiet)
    except Refused as refused:                                          # the market was accepted: it is the worths
        raise InFile(refused) from None
    found, stopped = _searched(search, args)
    fault = _fault(search, found)
    if fault:
        lines([_counts(found)])
        raise Failed(1, f'the engine is wrong: {fault}. Keep the market; the row is {_row(found.row)}')
    lines(_told(search.truth, found, search.reduced(found.row) if found.reports else search.truth))
    if stopped:
        end_by_ctrl_c(f'stopped after {found.reports:,} of {args.reports:,} reports')
    return 0


def _fault(search: Search, found: Tally) -> str:
    """What cannot be in a truthful round."""
    if search.quiet or not found.reports:
        return ''
    cleared = search.outcome(found.row).gain
    if cleared != found.best:
        return f'a row gains {found.best} among many and {cleared} in a clearing'
    return f'a row gains {found.best}, and the truth {search.truth.gain}, in a truthful round' if found.more else ''


def _searched(search: Search, args: Namespace) -> Tuple[Tally, bool]:
    """What was found, and whether Ctrl-C came before the end."""
    found, shown = Tally(), Progress(f'guest {args.guest}', 'reports')
    steps = search.found_so_far(args.reports, args.seed, cores())
    try:
        with ctrl_c_raises():
            for found in steps:
                shown(found.reports, args.reports, f', best {found.best:,}')
    except KeyboardInterrupt:
        steps.close()
        return found, True
    except WorkerFailed as error:
        raise Failed(3, str(error)) from None
    finally:
        shown.end()
    return found, False


def _told(truth: Outcome, found: Tally, best: Outcome) -> List[str]:
    out = [f'the truth gains {truth.gain:,}: {_seat(truth)}', _counts(found)]
    beyond = best.gain - truth.gain
    if beyond == 0:
        out.append('the best gains as much as the truth')
    else:
        out += [f'the best gains {best.gain:,}, {abs(beyond):,} {"more" if beyond > 0 else "less"} than the truth: '
                f'{_seat(best)}', 'its row: ' + _row(best.row), 'changed: ' + _changed(truth, best)]
    return out if beyond > 0 else [*out, 'none gains more than the truth']


def _counts(found: Tally) -> str:
    return (f'{found.reports:,} reports: {found.less:,} gain less, {found.equal:,} as much, {found.more:,} more; the '
            f'worst gains {found.worst:,}')


def _row(bids: Sequence[int]) -> str:
    return ','.join(map(str, bids))


def _seat(one: Outcome) -> str:
    return f'station {one.station} charge {one.charge:,}' if one.station else 'no seat'


def _changed(truth: Outcome, best: Outcome) -> str:
    return ', '.join(f'station {k} {bid or "no bid"} for {worth or "no bid"}'
                     for k, (worth, bid) in enumerate(zip(truth.row, best.row), 1) if worth != bid)
