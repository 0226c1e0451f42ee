"""Where a comma-separated market is refused, by a pass over its bytes: a help after the engine has refused, not part of
what is proved."""
from __future__ import annotations

from typing import Optional, Tuple

from . import _c
from .refusal import Where

COMMA, CR, LF, END = 44, 13, 10, -1
DIGITS = 10                                     # a field has at most
NAMES = {0: 'a NUL', 9: 'a tab', 32: 'a blank', 34: 'a quote', 45: 'a minus', 46: 'a point', 59: 'a semicolon'}
Fault = Tuple[int, str]


def in_csv(number: int, text: bytes) -> Where:
    """The place of the fault of that number.

    >>> str(in_csv(22, b'2,6\\r\\n1\\r\\n'))
    'line 2, field 1'
    """
    found, where = look(text)
    return where if found == number else Where()


def look(text: bytes) -> Tuple[int, Where]:
    """The first fault of a text and its place, or 0. A place is the byte at which the fault is met.

    >>> number, where = look(b'2,6\\r\\n1,65536\\r\\n')
    >>> number, str(where), where.detail
    (23, 'line 2, field 2', '65536 is above 65535')
    """
    line = field = 1
    start = m = 0
    while True:
        at = _field_end(text, start)
        byte = text[at] if at < len(text) else END
        if line > 2 and field == 1 and at == start and byte == END:
            return 0, Where()
        place = Where(line=line, field=field, byte=at)
        fault = _wrong(text[start:at], byte, line, field, m)
        if fault:
            many = fault[0] == 2 and line > 2
            return fault[0], place._replace(detail=fault[1], byte=start if many else at)
        if line == 1:
            m = field
        if byte == COMMA:
            field, start = field + 1, at + 1
        elif text[at + 1:at + 2] == b'\n':
            line, field, start = line + 1, 1, at + 2
        else:
            return 22, place._replace(byte=at + 1, detail='CR without LF: each line ends in CR LF')


def _field_end(text: bytes, start: int) -> int:
    at = start
    while at < len(text) and 48 <= text[at] <= 57:
        at += 1
    return at


def _wrong(digits: bytes, byte: int, line: int, field: int, m: int) -> Optional[Fault]:
    """What is wrong with a field and the byte after it."""
    if line > 2 + _c.MAX_GUESTS:
        return 2, f'the line of guest {line - 2}, at most {_c.MAX_GUESTS} are read'
    return (_too_large(digits, line == 2 or (line > 2 and field == 2))
            or _too_many(byte, line, field) or _malformed(digits, byte, line, field, m))


def _too_large(digits: bytes, short: bool) -> Optional[Fault]:
    top = 65535 if short else 4294967295
    if len(digits) > DIGITS:
        return 23, f'{len(digits)} digits, at most ten'
    if digits and int(digits) > top:
        return 23, f'{int(digits)} is above {top}'
    return None


def _too_many(byte: int, line: int, field: int) -> Optional[Fault]:
    if line == 1 and field == _c.MAX_STATIONS and byte == COMMA:
        return 2, f'an ask of station {field + 1}, at most {_c.MAX_STATIONS} are read'
    return None


def _malformed(digits: bytes, byte: int, line: int, field: int, m: int) -> Optional[Fault]:
    wanted = {1: 0, 2: m}.get(line, m + 2)
    if byte == END:
        return 22, _ended(digits, line, field)
    if byte == LF:
        return 22, 'LF without CR: each line ends in CR LF'
    if byte not in (COMMA, CR):
        return 22, f'{_named(byte)}: only digits, commas and CR LF'
    if wanted and byte == COMMA and field == wanted:
        return 22, f'a field too many: {wanted} are wanted, for {m} stations'
    if wanted and byte == CR and field < wanted:
        return 22, f'{field} fields, wanted {wanted} for {m} stations'
    if not digits and (line < 3 or field < 3):
        return 22, f'{_name(line, field)} empty: only a bid may be'
    return None


def _ended(digits: bytes, line: int, field: int) -> str:
    if line < 3 and field == 1 and not digits:
        return f'the text ends here: a line of {"asks" if line == 1 else "bays"} is wanted'
    return 'the text ends without CR LF'


def _name(line: int, field: int) -> str:
    if line == 2:
        return 'bays are'
    return 'the ask is' if line == 1 else 'the ticket is' if field == 1 else 'the amount is'


def _named(byte: int) -> str:
    return NAMES.get(byte) or (f'the character {chr(byte)}' if 33 <= byte < 127 else f'byte {byte:02x}')
