"""Clearings that are handed in, as people write them: a JSON object, the lines of `bay clear --marked`, or a folder
with a file for each list. What cannot be read is told with its place; whether the numbers are right is the engine's
business."""
from __future__ import annotations

import json
import re
from typing import Any, Dict, List, Mapping, NamedTuple, NoReturn, Optional, Tuple

from .clearing import HANDED_IN
from .lending import rows

NUMBERS = ('cut', 'margin')
NAMES = NUMBERS + HANDED_IN
DIGITS = 40                     # whatever is longer is no number of any list

# the lines of bay clear, but for places: what they name, and the numbers that follow
LINES = {'cut': (r'cut {}', ('cut',)), 'margin': (r'margin {}', ('margin',)),
         'guest': (r'guest {} station {} charge {}', ('stations', 'charges')),
         'station': (r'station {} sold {} paid {}', ('sold', 'paid')), 'floor': (r'floor {} {}', ('floors',))}
WHOLE = r'(-?[0-9]{1,40})'


class Unreadable(Exception):
    """A submission that is no clearing, with the place and what stands there."""


class Submission(NamedTuple):
    """A clearing as it is handed in: any whole numbers, lists of any length, places row after row."""
    cut: int
    margin: int
    stations: List[int]
    charges: List[int]
    sold: List[int]
    paid: List[int]
    places: List[int]
    floors: List[int]


def in_ascii(text: str, most: int = 40) -> str:
    """Text as it is shown in a message.

    >>> in_ascii('a\\x1b[31m'), in_ascii('x' * 50)[-4:]
    ('a?[31m', 'x...')
    """
    shown = re.sub(r'[^ -~]', '?', text)
    return shown if len(shown) <= most else shown[:most] + '...'


def decoded(name: str, data: bytes) -> str:
    """The text of a file.

    >>> decoded('a', b'\\xef\\xbb\\xbfcut 3')
    'cut 3'
    """
    try:
        return data.decode('utf-8-sig')
    except UnicodeDecodeError as error:
        raise Unreadable(f'{name}, byte {error.start}: not UTF-8') from None


def read_submission(name: str, data: bytes, n: int, m: int) -> Submission:
    """A clearing of n guests and m stations, from a JSON object or from lines.

    >>> read_submission('a.txt', b'cut 2\\nstation 1 sold 0 paid 0\\nfloor 1 0\\nmargin 0\\n', 0, 1).sold
    [0]
    """
    text = decoded(name, data)
    if text.lstrip()[:1] in ('{', '['):
        return of_json(name, text, m)
    return of_lines(name, text, n, m)


def of_json(name: str, text: str, m: int) -> Submission:
    """A clearing from an object, as `bay clear --marked --json` writes it; places in rows, or row after row.

    >>> of_json('a.json', '{"cut": 2}', 1)
    Traceback (most recent call last):
    bay_market.submission.Unreadable: a.json: "margin" is missing
    """
    found = _object(name, text)
    for key in NAMES:
        if key not in found:
            raise Unreadable(f'{name}: "{key}" is missing')
    lists = {}
    for key in HANDED_IN:
        values = found[key]
        if not isinstance(values, list):
            raise Unreadable(f'{name}: "{key}" is not a list')
        lists[key] = _flat(name, values, m) if key == 'places' else values
        for k, value in enumerate(lists[key], 1):
            _whole(f'{name}: "{key}", element {k}', value)
    for key in NUMBERS:
        _whole(f'{name}: "{key}"', found[key])
    return Submission(found['cut'], found['margin'], **lists)


def _object(name: str, text: str) -> Dict[str, Any]:
    def pairs(items: List[Tuple[str, Any]]) -> Dict[str, Any]:
        keys = [key for key, _ in items]
        for key in keys:
            if keys.count(key) > 1:
                raise Unreadable(f'{name}: "{in_ascii(key)}" is there twice')
        return dict(items)

    def whole(digits: str) -> int:
        if len(digits) > DIGITS:
            raise Unreadable(f'{name}: a number of {len(digits)} digits')
        return int(digits)

    def constant(word: str) -> NoReturn:
        raise Unreadable(f'{name}: {word} is not a whole number')
    try:
        found = json.loads(text, object_pairs_hook=pairs, parse_int=whole, parse_constant=constant)
    except json.JSONDecodeError as error:
        raise Unreadable(f'{name}, line {error.lineno}, column {error.colno}: not JSON: {error.msg}') from None
    except RecursionError:
        raise Unreadable(f'{name}: nested too deep') from None
    if not isinstance(found, dict):
        raise Unreadable(f'{name}: a list, where an object is wanted')
    return found


def _flat(name: str, values: List[Any], m: int) -> List[Any]:
    """Places row after row; where they stand in rows, each is as wide as the market."""
    try:
        flat, width = rows('"places"', values)
    except ValueError as error:
        raise Unreadable(f'{name}: {in_ascii(str(error), 90)}') from None
    if width not in (0, m):
        raise Unreadable(f'{name}: "places": rows of {width} numbers, the market has {m} stations')
    return list(flat)


def _whole(place: str, value: Any) -> None:
    if isinstance(value, bool) or not isinstance(value, int):
        raise Unreadable(f'{place}: {in_ascii(json.dumps(value))} is not a whole number')


def of_lines(name: str, text: str, n: int, m: int) -> Submission:
    """A clearing from the lines of `bay clear --marked`, in any order.

    >>> of_lines('a.txt', 'cut 2\\ncut 3\\n', 0, 1)
    Traceback (most recent call last):
    bay_market.submission.Unreadable: a.txt, line 2: cut is there twice, first in line 1
    """
    sizes = {'stations': n, 'charges': n, 'sold': m, 'paid': m, 'places': n, 'floors': m}
    found: Dict[str, Any] = {key: [None] * size for key, size in sizes.items()}
    seen: Dict[str, int] = {}
    for number, line in enumerate(text.splitlines(), 1):
        if line.strip():
            what = _line(found, line.strip(), f'{name}, line {number}', m)
            if what in seen:
                raise Unreadable(f'{name}, line {number}: {what} is there twice, first in line {seen[what]}')
            seen[what] = number
    _nothing_missing(name, seen, n, m)
    found['places'] = [held for row in found['places'] for held in row]
    return Submission(**found)


def _line(found: Dict[str, Any], line: str, place: str, m: int) -> str:
    """Puts the numbers of a line where they belong, and gives what the line is about."""
    word = line.split()[0]
    if word == 'places':
        return _places(found['places'], line, place, m)
    form, names = LINES.get(word, ('', ()))
    match = re.fullmatch(form.format(*[WHOLE] * form.count('{}')).replace(' ', ' +'), line) if form else None
    if match is None:
        raise Unreadable(f'{place}: "{in_ascii(line)}" is no line of bay clear --marked, and the file is no JSON '
                         'object')
    values = [int(digits) for digits in match.groups()]
    if word in NUMBERS:
        found[word] = values[0]
        return word
    _there(word, values[0], len(found[names[0]]), place)
    for name, value in zip(names, values[1:]):
        found[name][values[0] - 1] = value
    return f'{word} {values[0]}'


def _places(table: List[Optional[List[int]]], line: str, place: str, m: int) -> str:
    match = re.fullmatch(r'places((?: +[0-9]{1,10})+)', line)
    if match is None:
        raise Unreadable(f'{place}: "{in_ascii(line)}": wanted are places, a guest and its stations')
    guest, *held = map(int, match.group(1).split())
    _there('guest', guest, len(table), place)
    for station in held:
        _there('station', station, m, place)
        if held.count(station) > 1:
            raise Unreadable(f'{place}: station {station} is there twice')
    table[guest - 1] = [int(station in held) for station in range(1, m + 1)]
    return f'places {guest}'


def _there(word: str, number: int, most: int, place: str) -> None:
    if not 1 <= number <= most:
        raise Unreadable(f'{place}: this market has no {"station" if word == "floor" else word} {number}')


def _nothing_missing(name: str, seen: Mapping[str, int], n: int, m: int) -> None:
    guests, stations = range(1, n + 1), range(1, m + 1)
    wanted = ['cut', *(f'guest {k}' for k in guests), *(f'station {k}' for k in stations),
              *(f'floor {k}' for k in stations), *(f'places {k}' for k in guests), 'margin']
    for what in wanted:
        if what not in seen:
            raise Unreadable(f'{name}: the line of {what} is missing')


def of_folder(files: Mapping[str, Tuple[str, bytes]]) -> Submission:
    """A clearing from files, a name and its bytes for each list and number: numbers parted by blanks, commas,
    semicolons or line ends.

    >>> numbers = {'cut': b'2', 'margin': b'0', 'stations': b'', 'charges': b'', 'places': b''}
    >>> lists = {'sold': b'0,0', 'paid': b'0;0', 'floors': b'0\\n0\\n'}
    >>> of_folder({name: (f'a/{name}', data) for name, data in {**numbers, **lists}.items()}).paid
    [0, 0]
    """
    found: Dict[str, Any] = {}
    for key in NAMES:
        name, data = files[key]
        values = [value for number, line in enumerate(decoded(name, data).splitlines(), 1)
                  for value in _numbers(name, number, line)]
        if key in NUMBERS and len(values) != 1:
            raise Unreadable(f'{name}: {len(values)} numbers, wanted one')
        found[key] = values[0] if key in NUMBERS else values
    return Submission(**found)


def _numbers(name: str, number: int, line: str) -> List[int]:
    out = []
    fields = re.split('[,;]', line) if re.search('[,;]', line) else line.split()
    for k, field in enumerate(fields, 1):
        if not re.fullmatch(WHOLE, field.strip()):
            raise Unreadable(f'{name}, line {number}, field {k}: "{in_ascii(field.strip())}" is not a whole number')
        out.append(int(field))
    return out
