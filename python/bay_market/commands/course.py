"""bay course run, bay course check, bay course round."""
from __future__ import annotations

import os
from argparse import Namespace
from typing import Dict, List, NoReturn, Optional, Tuple

from ..bidder import NoProgram, Program, program_of
from ..clearing import clear
from ..course import EngineWrong, check, run
from ..market import Market
from ..protocol import WRONG
from ..report import Entry, Held, NoReport, Report, Settings, of_json
from ..words import plural
from .files import in_file, in_form, is_csv, load, path, read, write
from .output import Cell, Failed, lines, table
from .progress import Progress
from .signals import ctrl_c_raises, end_by_ctrl_c

LONGEST = 1 << 30           # bytes of a report
SHOWN = 10                  # faults of a report
HEADS = ('bidder', 'answered', 'late', 'wrong', 'seated', 'gain', 'by the truth', 'by lying', '')


def do_course_run(args: Namespace) -> int:
    """Lets bidders play and prints a table of what each gained."""
    programs, settings = _programs(args.bidder), _settings(args)
    if len(programs) > settings.guests:
        raise Failed(2, f'{len(programs)} bidders and {plural(settings.guests, "guest")}: each bidder is another guest')
    shown = Progress('course', 'rounds')
    try:
        with ctrl_c_raises():
            report = run(programs, settings, args.limit, args.memory, lambda done: shown(done, settings.rounds))
    except EngineWrong as wrong:
        _engine_wrong(wrong)
    except KeyboardInterrupt:
        end_by_ctrl_c('stopped: nothing is kept')
    finally:
        shown.end()
    if args.report is not None:
        write(args.report, report.to_json())
    if args.report != '-':
        _table(report)
    return 0


def _programs(words: List[str]) -> List[Program]:
    taken: Dict[str, int] = {}
    try:
        return [program_of(word, taken) for word in words]
    except NoProgram as error:
        raise Failed(2, str(error)) from None


def _settings(args: Namespace) -> Settings:
    given: Optional[Market] = None
    if args.market is not None:
        if args.guests is not None or args.stations is not None:
            raise Failed(2, 'a market has its guests and stations: --market, or --guests and --stations')
        name, data, market = load(args.market)
        in_file(name, data, lambda: clear(market, args.rule))
        args.guests, args.stations, given = market.n, market.m, market
    guests = 20 if args.guests is None else args.guests
    return Settings(args.seed, args.rounds, guests, args.stations or 6, args.rule, args.quiet, given)


def _engine_wrong(wrong: EngineWrong) -> NoReturn:
    """The market is kept beside no other file."""
    names = ['wrong-engine.sheet', *(f'wrong-engine-{k}.sheet' for k in range(2, 1000))]
    name = next((name for name in names if not os.path.exists(path(name))), names[-1])
    write(name, wrong.market.to_sheet())
    lines([f'wrong engine in round {wrong.number}'])
    raise Failed(1, f'the engine is wrong: {wrong}. The course stops; the market of round {wrong.number} is kept in '
                 f'{name}')


def _table(report: Report) -> None:
    held = report.settings
    lines([f'{plural(held.rounds, "round")}, {"quiet" if held.quiet else "truthful"}, rule {held.rule}, '
           f'{plural(held.guests, "guest")} by {plural(held.stations, "station")}, seed {held.seed}', ''])
    totals = [report.totals(at) for at in range(len(report.bidders))]
    order = sorted(range(len(totals)), key=lambda at: (-totals[at].by_lying, report.bidders[at].name))
    table(HEADS, [_row(report, at) for at in order], left=('bidder', ''))
    for at in order:
        lines(_said(report, at))


def _row(report: Report, at: int) -> List[Cell]:
    seen, total = report.bidders[at], report.totals(at)
    left = f'out in round {seen.left.number}: {seen.left.why}' if seen.left else ''
    lying = f'{total.by_lying:+,}' if total.by_lying else '0'
    return [seen.name, total.answered, total.late, total.wrong, total.seated, total.gain, total.truth, lying, left]


def _said(report: Report, at: int) -> List[str]:
    """What a bidder wrote last on standard error, where it is out, and the first of its wrong answers."""
    seen = report.bidders[at]
    out = [f'{seen.name} last wrote: {seen.left.words}'] if seen.left and seen.left.words else []
    wrong = [(one.number, one.entries[at].said) for one in report.played if one.entries[at].answer == WRONG]
    return out + [f'{seen.name}, round {number}: {said}' for number, said in wrong[:1]]


def _report(name: str) -> Tuple[str, Held]:
    shown, data = read(name, LONGEST)
    try:
        return shown, of_json(data)
    except NoReport as error:
        raise Failed(2, f'{shown} is no report of bay course run: {error}') from None


def do_course_check(args: Namespace) -> int:
    """Clears every round of a report anew."""
    _, held = _report(args.report)
    try:
        faults = check(held)
    except EngineWrong as wrong:
        _engine_wrong(wrong)
    lines(['wrong' if faults else 'right'])
    if faults:
        lines(faults[:SHOWN])
        if faults[SHOWN:]:
            lines([f'and {len(faults) - SHOWN:,} more'])
        return 1
    _table(held.report)
    return 0


def do_course_round(args: Namespace) -> int:
    """The market of a round, for bay why, bay try, bay show and bay picture."""
    name, held = _report(args.report)
    one = next((one for one in held.report.played if one.number == args.number), None)
    if one is None:
        raise Failed(2, f'{name} has rounds 1 to {len(held.report.played)}')
    write(args.out, in_form(one.market, is_csv(args.out) if args.to is None else args.to == 'csv'))
    if args.out != '-':
        lines(_did(one.market, entry) for entry in one.entries)
    return 0


def _did(market: Market, entry: Entry) -> str:
    bids, worths = (','.join(map(str, row)) for row in (market.row(entry.guest), entry.worths))
    return (f'{entry.name}: guest {entry.guest}, {entry.answer}, bids {bids} for worths {worths}; station '
            f'{entry.station} charge {entry.charge} gain {entry.gain}, by the truth {entry.truth}')
