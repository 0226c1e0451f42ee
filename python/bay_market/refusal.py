"""A refusal of the engine, and where the fault lies.

The number is the engine's. The place is found in Python, after the engine has refused, by looking at what was lent: a
help for people, no part of what is proved."""
from __future__ import annotations

from typing import Any, Dict, NamedTuple, Optional, Tuple, Union

from . import _c


def text_of(number: int) -> str:
    """What an answer of the engine says.

    >>> text_of(15)
    'two guests have the same ticket'
    """
    return _c.REFUSALS.get(number, 'not an answer of the engine')


class Where(NamedTuple):
    """A place in what was lent; whatever is not known is None. Lines, fields, guests and stations count from 1, bytes
    and desks from 0. `detail` is what stands there, in words.

    >>> str(Where(guest=117, station=3)), str(Where(byte=9, line=2, field=1))
    ('guest 117, station 3', 'line 2, field 1')
    """
    detail: str = ''
    line: Optional[int] = None
    field: Optional[int] = None
    byte: Optional[int] = None
    guest: Optional[int] = None
    station: Optional[int] = None
    list: Optional[str] = None
    desk: Optional[int] = None
    gate: Optional[str] = None

    def known(self) -> Dict[str, Union[int, str]]:
        """What is known of the place, without the detail.

        >>> Where('its ask is 2,000,000', station=3).known()
        {'station': 3}
        """
        return {key: value for key, value in self._asdict().items() if key != 'detail' and value is not None}

    def __str__(self) -> str:
        return ', '.join(f'{key} {value}' for key, value in self.known().items()
                         if key != 'byte' or self.line is None)

    def __bool__(self) -> bool:
        return bool(self.detail or self.known())

    def as_dict(self) -> Dict[str, Union[int, str]]:
        """The place as an object of JSON.

        >>> Where('its ask is 2,000,000', station=3).as_dict()
        {'station': 3, 'detail': 'its ask is 2,000,000'}
        """
        return {**self.known(), **({'detail': self.detail} if self.detail else {})}


class Refused(Exception):
    """The engine refused: `number` is its answer, `text` what that says, `where` the place.

    >>> str(Refused(8, Where('its amount is 0', guest=117)))
    'refused 8: an amount is 0 or above 1,000: guest 117: its amount is 0'
    """

    def __init__(self, number: int, where: Where = Where()) -> None:
        super().__init__(number, where)
        self.number = number
        self.text = text_of(number)
        self.where = where

    def __str__(self) -> str:
        parts = (f'refused {self.number}', self.text, str(self.where), self.where.detail)
        return ': '.join(part for part in parts if part)

    def __reduce__(self) -> Tuple[Any, ...]:
        return Refused, (self.number, self.where)

    def as_dict(self) -> Dict[str, Any]:
        """The refusal as an object of JSON.

        >>> Refused(18).as_dict()
        {'refused': 18, 'text': 'the number names no rule: it is neither 1 nor 2', 'where': {}}
        """
        return {'refused': self.number, 'text': self.text, 'where': self.where.as_dict()}
