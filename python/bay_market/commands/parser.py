"""The words of the command line: each command's options, files, help and example.

Options stand before or after files, none is abbreviated, and none is given twice. Only the parser of the command that
is asked for is made."""
from __future__ import annotations

import argparse
import os
from typing import Any, Callable, Dict, List, NamedTuple, NoReturn, Optional, Sequence, Tuple, Union

from .._c import MAX_GUESTS, MAX_STATIONS, VERSION
from .output import Failed, out

ANY_GUEST = 2 ** 32 - 1     # whether there is such a guest is the engine's business
ANY = 2 ** 63 - 1           # so for desks and rounds


class Parser(argparse.ArgumentParser):
    """Wrong words are one line and status 2; help is on standard output."""

    def error(self, message: str) -> NoReturn:
        raise Failed(2, f'{message} ({self.prog} --help)')

    def _print_message(self, message: str, file: Any = None) -> None:
        out(message)


def _formatter(prog: str) -> argparse.HelpFormatter:
    """As wide as the terminal is; argparse would look through a module that takes milliseconds to import."""
    try:
        columns = os.get_terminal_size(1).columns
    except OSError:
        columns = 100
    return argparse.RawDescriptionHelpFormatter(prog, width=max(40, min(columns, 120) - 2))


class Once(argparse.Action):
    """An option with a value that is given at most once."""

    def __call__(self, parser: argparse.ArgumentParser, namespace: argparse.Namespace,
                 values: Union[str, Sequence[Any], None], option: Optional[str] = None) -> None:
        given = namespace.__dict__.setdefault('given', set())
        if self.dest in given:
            parser.error(f'{option} is given twice')
        given.add(self.dest)
        setattr(namespace, self.dest, values)


class Command(NamedTuple):
    """A command: the module that has it, what it does, its usage, an example for each line, and its words."""
    name: str
    group: str
    text: str
    usage: str
    example: str
    words: Callable[[Parser], None]

    def parser(self) -> Parser:
        """The parser of the command's words."""
        made = Parser(prog=f'bay {self.name}', usage=f'bay {self.name} {self.usage}'.rstrip(), allow_abbrev=False,
                      formatter_class=_formatter,
                      description=f'{self.text[0].upper()}{self.text[1:]}.',
                      epilog='example:\n' + ''.join(f'  {line}\n' for line in self.example.split('\n')))
        self.words(made)
        return made


def whole(low: int, high: int, what: str) -> Callable[[str], int]:
    """Reads a whole number.

    >>> whole(1, 2, 'rule')('2')
    2
    """
    def number(text: str) -> int:
        if not text.isascii() or not text.isdigit() or not low <= int(text[:20]) <= high:
            raise argparse.ArgumentTypeError(f'{ascii(text[:40])} is no {what}: {low} to {high}')
        return int(text)
    return number


def seconds(text: str) -> float:
    """Reads a time.

    >>> seconds('0.5')
    0.5
    """
    digits = text.replace('.', '', 1)
    if not digits.isascii() or not digits.isdigit() or len(digits) > 10 or not 0.01 <= float(text) <= 3600:
        raise argparse.ArgumentTypeError(f'{ascii(text[:40])} is no number of seconds: 0.01 to 3600')
    return float(text)


def _file(made: Parser) -> None:
    made.add_argument('file', metavar='FILE', nargs='?', help='a sheet or a CSV; without it, or -, standard input')


def _out(made: Parser) -> None:
    made.add_argument('out', metavar='OUT', help='CSV where the name ends in .csv, else a sheet; - is standard output')
    made.add_argument('--to', action=Once, choices=('csv', 'sheet'), help='the form of OUT, whatever its name')


def _rule(made: Parser) -> None:
    made.add_argument('--rule', action=Once, type=whole(1, 2, 'rule'), default=1, metavar='N',
                      help='the rule of the cut, 1 (default) or 2')


def _quiet(made: Parser) -> None:
    made.add_argument('--quiet', action='store_true', help='a quiet round: more seats, but a false bid may pay')


def _json(made: Parser) -> None:
    made.add_argument('--json', action='store_true', help='one JSON object, for programs')


def _guest(made: Parser) -> None:
    made.add_argument('guest', metavar='GUEST', type=whole(0, ANY_GUEST, 'guest'), help='its number, from 1')


def _seed(made: Parser) -> None:
    made.add_argument('--seed', action=Once, default='1', metavar='S', help='any word; the same gives the same (1)')


def _clear(made: Parser) -> None:
    for words in (_quiet, _rule, _json, _file):
        words(made)
    made.add_argument('--marked', action='store_true', help='with the floors, and the places that each guest holds')


def _why(made: Parser) -> None:
    for words in (_rule, _json, _file):
        words(made)
    made.add_argument('--guest', action=Once, type=whole(0, ANY_GUEST, 'guest'), metavar='I',
                      help='one guest, station by station, in words')


def _show(made: Parser) -> None:
    for words in (_quiet, _rule, _file):
        words(made)
    made.add_argument('--names', action=Once, metavar='NAMES',
                      help='a name for each guest, a line each: bay tidy --names writes such a file')


def _convert(made: Parser) -> None:
    made.add_argument('file', metavar='FILE', help='a sheet or a CSV; - is standard input')
    _out(made)
    made.add_argument('--labels', action='store_true', help='CSV with labels, for people: bay tidy reads it back')


def _tidy(made: Parser) -> None:
    made.add_argument('file', metavar='IN', help='what a spreadsheet exported; - is standard input')
    made.add_argument('out', metavar='OUT', nargs='?', default='-',
                      help='a sheet where the name ends in .sheet, else CSV; without it, or -, standard output')
    made.add_argument('--names', action=Once, metavar='NAMES',
                      help='keeps the names in front of the tickets, a line each')


def _place(made: Parser) -> None:
    made.add_argument('file', metavar='PLACES', help='CSV with a line of asks, of bays, of the stations\' first and of '
                      'their second coordinates, then for each guest ticket, kWh, price, fall and both coordinates')
    _out(made)


def _join(made: Parser) -> None:
    made.add_argument('first', metavar='FIRST', help='the gate whose guests come first')
    made.add_argument('second', metavar='SECOND', help='the other gate, with the same stations')
    _out(made)


def _try(made: Parser) -> None:
    _guest(made)
    made.add_argument('row', metavar='ROW', help='a bid for each station, parted by commas: 0,5,0,4,2')
    for words in (_file, _rule, _json):
        words(made)
    made.add_argument('--worths', action=Once, metavar='ROW',
                      help='what a kWh is worth to it; without it, its row in FILE')


def _menu(made: Parser) -> None:
    for words in (_guest, _file, _rule, _json):
        words(made)


def _search(made: Parser) -> None:
    for words in (_guest, _file, _rule, _quiet, _seed):
        words(made)
    made.add_argument('--worths', action=Once, metavar='ROW',
                      help='what a kWh is worth to it, the truth; without it, its row in FILE')
    made.add_argument('--reports', action=Once, type=whole(1, 10 ** 12, 'number of reports'), default=100000,
                      metavar='N', help='rows of bids to try (100000)')


def _mark(made: Parser) -> None:
    made.add_argument('submission', metavar='SUBMISSION', nargs='+',
                      help='a JSON object as bay clear --marked --json writes it, the lines of bay clear --marked, or '
                      'a folder with files cut, margin, stations, charges, sold, paid, places, floors (.txt or .csv); '
                      '- is standard input')
    made.add_argument('market', metavar='MARKET', help='a sheet or a CSV; - is standard input')
    _rule(made)
    made.add_argument('--brief', action='store_true', help='right or wrong alone, for examinations')


def _course_run(made: Parser) -> None:
    made.add_argument('bidder', metavar='BIDDER', nargs='+',
                      help="a program, a .py file or NAME=COMMAND; it runs with your rights: run strangers' programs "
                      'as another user or in a container')
    made.add_argument('--rounds', action=Once, type=whole(1, 100000, 'number of rounds'), default=100, metavar='N',
                      help='1 to 100000 (100)')
    made.add_argument('--guests', action=Once, type=whole(1, MAX_GUESTS, 'number of guests'), metavar='N',
                      help=f'of each market, 1 to {MAX_GUESTS} (20)')
    made.add_argument('--stations', action=Once, type=whole(1, MAX_STATIONS, 'number of stations'), metavar='N',
                      help=f'of each market, 1 to {MAX_STATIONS} (6)')
    made.add_argument('--market', action=Once, metavar='FILE',
                      help='every round has this market, its bids are the worths, and bidders keep their guests')
    for words in (_seed, _rule, _quiet):
        words(made)
    made.add_argument('--limit', action=Once, type=seconds, default=1.0, metavar='S',
                      help='seconds for an answer, 0.01 to 3600 (1); the first may take 10')
    made.add_argument('--memory', action=Once, type=whole(16, 1 << 20, 'number of MiB'), default=2048, metavar='MIB',
                      help='address space of each bidder, 16 to 1048576 MiB (2048)')
    made.add_argument('--report', action=Once, metavar='OUT.json', help='keeps every round; - is standard output')


def _course_check(made: Parser) -> None:
    made.add_argument('report', metavar='REPORT', help='what --report wrote; - is standard input')


def _course_round(made: Parser) -> None:
    _course_check(made)
    made.add_argument('number', metavar='N', type=whole(1, 100000, 'round'), help='the number of the round')
    _out(made)


def _picture(made: Parser) -> None:
    made.add_argument('file', metavar='FILE', help='a sheet or a CSV; - is standard input')
    made.add_argument('out', metavar='OUT.svg', help='- is standard output')
    for words in (_quiet, _rule):
        words(made)
    made.add_argument('--guest', action=Once, type=whole(0, ANY_GUEST, 'guest'), metavar='I',
                      help='marked in yellow, with its reasons in words')
    made.add_argument('--width', action=Once, type=whole(400, 10000, 'width'), default=1120, metavar='PX',
                      help='400 to 10000 (1120)')
    made.add_argument('--title', action=Once, metavar='T', help='without it, the name of FILE')


def _post(made: Parser) -> None:
    made.add_argument('files', metavar='FILE', nargs='+', help='a sheet or a CSV for each round; - is standard input')
    made.add_argument('--book', action=Once, required=True, metavar='B', help='a file, or postgresql://..')
    made.add_argument('--desk', action=Once, required=True, type=whole(0, ANY, 'desk'), metavar='D', help='0 to 7')
    made.add_argument('--round', action=Once, required=True, type=whole(0, ANY, 'round'), metavar='R',
                      help="the desk's last one plus 1, which bay book B --desk D prints; each FILE after the first is "
                      'the next')
    _rule(made)
    made.add_argument('--again', action='store_true', help='a round that is posted already, with this very sheet and '
                      'rule, counts as posted: for a desk that lost its answer')
    made.add_argument('--together', action=Once, type=whole(1, 100000, 'count'), default=1, metavar='K',
                      help='so many rounds in one transaction, with one sync (1)')
    made.add_argument('--wait', action=Once, type=whole(0, 3600, 'time'), default=30, metavar='S',
                      help='seconds to wait for other desks (30)')
    _json(made)


def _book_name(made: Parser) -> None:
    made.add_argument('book', metavar='B', help='a file (./new for one of that name), or postgresql://..')
    _json(made)


def _book_new(made: Parser) -> None:
    _book_name(made)
    for what, most in (('guest', 200), ('station', 40)):
        made.add_argument(f'--{what}s', action=Once, required=True, type=whole(0, 65535, 'count'),
                          metavar=what[0].upper(),
                          help=f'accounts of {what}s, at most {most}')


def _book_copy(made: Parser) -> None:
    _book_name(made)
    made.add_argument('to', metavar='TO', help='where no book is yet: a file, or postgresql://..')


def _book(made: Parser) -> None:
    _book_name(made)
    made.add_argument('--verify', action='store_true',
                      help='feeds the journal to the engine again and compares everything')
    for what, help_ in (('guest', 'the rounds in which it was seated, with its account'),
                        ('station', 'the rounds in which it sold, with its account'),
                        ('desk', 'its last round and the next')):
        made.add_argument(f'--{what}', action=Once, type=whole(0, ANY, what), metavar=what[0].upper(), help=help_)
    made.add_argument('--refusals', action='store_true', help='postings that were refused, with number and place')
    made.add_argument('--journal', action='store_true', help='postings, with the sum after each')


def _completion(made: Parser) -> None:
    """It has no words."""


def _help(made: Parser) -> None:
    made.add_argument('about', metavar='COMMAND', nargs='*', help='without it, what bay --help prints')


COMMANDS: Dict[str, Command] = {command.name: command for command in (
    Command('clear', 'clearing', 'clears a market and prints the clearing',
            '[--quiet | --marked] [--rule N] [--json] [FILE]',
            'bay clear market.csv\nbay clear --quiet --json market.sheet\nbay clear --marked <market.sheet', _clear),
    Command('why', 'clearing', 'tells each guest what it wins, or why it loses',
            '[--rule N] [--guest I] [--json] [FILE]', 'bay why market.csv\nbay why --guest 3 market.csv', _why),
    Command('show', 'clearing', 'shows a market and its clearing as tables',
            '[--quiet] [--rule N] [--names NAMES] [FILE]',
            'bay show market.csv\nbay show --names names.txt market.csv | lpr', _show),
    Command('convert', 'forms', 'writes a market as a sheet or as CSV', '[--to csv|sheet] [--labels] FILE OUT',
            'bay convert market.csv market.sheet\nbay convert --labels market.sheet for-the-spreadsheet.csv', _convert),
    Command('tidy', 'forms', "makes a spreadsheet's export into a strict CSV and says each thing that it changes",
            '[--names NAMES] IN [OUT]',
            'bay tidy export.csv market.csv\nbay tidy export.csv market.csv --names names.txt\n'
            'bay tidy export.csv | bay clear', _tidy),
    Command('place', 'forms', 'makes a market whose bids fall with the walk', '[--to csv|sheet] PLACES OUT',
            'bay place places.csv market.sheet', _place),
    Command('join', 'forms', "joins two gates' markets into one", '[--to csv|sheet] FIRST SECOND OUT',
            'bay join north.csv south.csv both.csv', _join),
    Command('try', 'trying', 'tells what another row of bids would have done for a guest',
            '[--rule N] [--worths ROW] [--json] GUEST ROW [FILE]',
            'bay try 3 0,5,0,4,0 market.csv\nbay try 3 0,5,0,4,0 market.csv --worths 0,6,0,5,0', _try),
    Command('menu', 'trying', "prints a guest's price list: what a place at each station costs it",
            '[--rule N] [--json] GUEST [FILE]', 'bay menu 3 market.csv', _menu),
    Command('search', 'searching', 'tries many rows of bids of a guest for one that gains more than the truth',
            '[--reports N] [--seed S] [--rule N] [--quiet] [--worths ROW] GUEST [FILE]',
            'bay search 3 market.csv\nbay search 3 market.csv --reports 20000 --quiet', _search),
    Command('mark', 'marking', 'marks clearings that are handed in: right, or wrong with the first wrong number',
            '[--rule N] [--brief] SUBMISSION [SUBMISSION ..] MARKET',
            'bay mark handed-in.json market.csv\nbay clear --marked --json market.csv | bay mark - market.csv\n'
            'bay mark --brief firm-1.json firm-2.txt market.csv', _mark),
    Command('course run', 'course', 'lets programs bid, and tells what each gained by not telling the truth',
            '[--rounds N] [--guests N] [--stations N] [--market FILE] [--seed S] [--rule N]\n'
            '       [--quiet] [--limit S] [--memory MIB] [--report OUT.json] BIDDER [BIDDER ..]',
            'bay course run honest.py shade.py --rounds 50 --report report.json\n'
            'bay course run climb.py --market market.csv --rounds 50 --quiet', _course_run),
    Command('course check', 'course', 'clears every round of a report anew and compares', 'REPORT',
            'bay course check report.json', _course_check),
    Command('course round', 'course', 'writes the market of a round of a report, with what its bidders did',
            '[--to csv|sheet] REPORT N OUT', 'bay course round report.json 17 round-17.csv', _course_round),
    Command('picture', 'drawing', 'draws a market and its clearing',
            '[--guest I] [--quiet] [--rule N] [--width PX] [--title T] FILE OUT.svg',
            "bay picture market.csv market.svg --guest 3\nbay picture market.csv market.svg --title 'An evening'",
            _picture),
    Command('post', 'post', 'posts rounds to a book, each on the disk before it is answered',
            '--book B --desk D --round R [--rule N] [--again] [--together K] [--wait S] [--json] FILE ..',
            'bay post --book park.db --desk 3 --round 18 market.csv\n'
            'bay post --book park.db --desk 3 --round 18 --again market.csv\n'
            'bay post --book park.db --desk 3 --round 18 --together 50 market.csv market.sheet', _post),
    Command('book', 'book', "shows a book's accounts, statements and journal, or verifies it",
            '[--verify | --guest G | --station S | --desk D | --refusals | --journal] [--json] B',
            'bay book park.db\nbay book park.db --verify\nbay book park.db --guest 3', _book),
    Command('book new', 'book', 'makes an empty book', '--guests G --stations S [--json] B',
            'bay book new park.db --guests 200 --stations 40', _book_new),
    Command('book copy', 'book', 'copies a book by its journal: a backup, a move to or from PostgreSQL, a new form',
            '[--json] B TO', 'bay book copy park.db backup.db', _book_copy),
    Command('completion', 'completing', 'prints completion for bash', '', 'source <(bay completion)', _completion),
    Command('help', 'completing', "prints a command's help", '[COMMAND]', 'bay help tidy', _help),
)}


def overview() -> str:
    """What `bay --help` prints.

    >>> overview().splitlines()[0]
    'usage: bay COMMAND [options] [FILE]'
    """
    rows = ''.join(f'  {name:<13} {command.text}\n' for name, command in COMMANDS.items())
    return f'''usage: bay COMMAND [options] [FILE]

Clears markets of charging bays, and tells why. FILE is a market sheet or a comma-separated market (CSV), known by its
first bytes; without it, or -, it is standard input.

{rows}
  bay COMMAND --help has the options and an example; bay --version has the version

A market as CSV: a line of asks, a line of bays, then for each guest ticket, kWh and its bids; each line ends in CR LF:
  2,6
  1,1
  1,3,8,
  2,3,8,

exit status: 0 done, 1 refused or wrong, 2 wrong use or no such file, 3 input or output failed
'''


def named(words: Sequence[str]) -> Command:
    """The command that one or two words name.

    >>> named(['clear', 'market.csv']).name, named(['course', 'run', 'honest.py']).name
    ('clear', 'course run')
    """
    found = COMMANDS.get(' '.join(words[:2])) or COMMANDS.get(words[0])
    if found is not None:
        return found
    several = [name for name in COMMANDS if name.startswith(f'{words[0]} ')]
    if several:
        raise Failed(2, f'which command of {words[0]}: {", ".join(several)}? (bay --help)')
    what = 'option' if words[0].startswith('-') else 'command'
    raise Failed(2, f'no such {what}: {words[0]} (bay --help)')


def parsed(words: Sequence[str]) -> Tuple[Command, argparse.Namespace]:
    """The command that is asked for, and its words.

    >>> parsed(['clear', 'market.csv', '--rule', '2'])[1].rule
    2
    """
    if not words:
        raise Failed(2, 'no COMMAND (bay --help)')
    if words[0] in ('-h', '--help', '--version'):
        if words[1:]:
            raise Failed(2, f'nothing goes with {words[0]} (bay --help)')
        out(overview() if words[0] != '--version' else f'bay {VERSION}\n')
        raise SystemExit(0)
    command = named(words)
    rest: List[str] = list(words[1 if command.name == words[0] else 2:])
    if '--' in rest:                                    # what follows is a file, whatever its first sign
        at = rest.index('--')
        rest[at:] = [f'./{word}' if word[:1] == '-' and word != '-' else word for word in rest[at + 1:]]
    return command, command.parser().parse_intermixed_args(rest)
