"""A refusal as people are told of it: the number on standard output, the reason with its place on standard error."""
from __future__ import annotations

from shlex import quote
from typing import List

from ..refusal import Refused, Where
from ..tidy import UTF16, Untidy, column, kind, oddities, text_place, tidy
from .files import STDIN, InFile
from .output import as_json, err, lines, listed


def placed(wrong: InFile) -> Refused:
    """The refusal, with line and field where the file is comma-separated text, and in words where it is empty.

    >>> placed(InFile(Refused(1, Where(byte=0)), 'a.csv')).where.detail
    'it is empty'
    """
    refused = wrong.refused
    if refused.where.byte == 0 and not wrong.data and wrong.name:
        return Refused(refused.number, refused.where._replace(detail='it is empty'))
    spot = text_place(refused) if wrong.text and refused.where.byte is None else None
    return refused if spot is None else Refused(refused.number, refused.where._replace(line=spot[0], field=spot[1]))


def place(name: str, where: Where) -> str:
    """File, line, field and cell, or file and byte.

    >>> place('fleet.csv', Where(line=119, field=2)), place('gate.sheet', Where(byte=20))
    ('fleet.csv, line 119, field 2 (cell B119)', 'gate.sheet, byte 20')
    """
    parts: List[str] = [name] if name else []
    if where.line is not None:
        parts.append(f'line {where.line}')
        if where.field is not None:
            parts.append(f'field {where.field} (cell {column(where.field - 1)}{where.line})')
    elif where.byte is not None:
        parts.append(f'byte {where.byte}')
    return ', '.join(parts)


def told(refused: Refused, name: str) -> str:
    """The reason in one line.

    >>> told(Refused(8, Where('its amount is 0', line=119, field=2, guest=117)), 'fleet.csv')
    'fleet.csv, line 119, field 2 (cell B119): guest 117: an amount is 0 or above 1,000: its amount is 0'
    """
    who = ', '.join(f'{key} {value}' for key, value in refused.where.known().items()
                    if key not in ('line', 'field', 'byte'))
    return ': '.join(filter(None, (place(name, refused.where), who, refused.text, refused.where.detail)))


def refuse(wrong: InFile, json: bool) -> None:
    """Prints a refusal and its reason, and what would help."""
    refused = placed(wrong)
    if json:
        as_json({**refused.as_dict(), **({'file': wrong.name} if wrong.name else {})})
    else:
        lines([f'refused {refused.number}'])
    err(told(refused, wrong.name))
    if (refused.number == 22 and wrong.text) or wrong.data[:2] in UTF16:
        _help(refused, wrong.name, wrong.data)


def _help(refused: Refused, name: str, data: bytes) -> None:
    """What a file that is no strict text seems to be, or how tidy makes it right: it was tried."""
    what = kind(data)
    if what:
        err(f'{name} seems to be {what}')
        return
    odd = oddities(data)
    has = f'{name} has {listed(odd)}; ' if odd else ''
    try:
        tidy(data)
        word = '-' if name == STDIN else quote(name)
        err(f'{has}this makes it right and says what it changed: bay tidy {word} OUT.csv')
    except Untidy as error:
        err(f'{has}tidy cannot make it right: {error}')
