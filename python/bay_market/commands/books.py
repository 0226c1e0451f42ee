"""What the commands of a book share: where it is, and how its faults end."""
from __future__ import annotations

import os
from contextlib import contextmanager
from typing import Iterator

from ..store import Book, BookError
from ..store.store import WAIT, is_url
from .files import path
from .output import Failed


def place(name: str) -> str:
    """A book's place: a URL as it is, a file by the bytes of its name.

    >>> place('park.db'), place('postgresql://db.example/park')
    ('park.db', 'postgresql://db.example/park')
    """
    return name if is_url(name) else os.fsdecode(path(name))


@contextmanager
def ending() -> Iterator[None]:
    """A book that is not there is status 2, one that cannot be read or written 3.

    >>> with ending():
    ...     raise BookError('no such book: park.db', missing=True)
    Traceback (most recent call last):
    bay_market.commands.output.Failed: no such book: park.db
    """
    try:
        yield
    except BookError as error:
        raise Failed(2 if error.missing else 3, str(error)) from None


@contextmanager
def opened(name: str, wait: float = WAIT, write: bool = True) -> Iterator[Book]:
    """An open book.

    >>> with opened('/nowhere/park.db') as book:
    ...     pass
    Traceback (most recent call last):
    bay_market.commands.output.Failed: no such book: /nowhere/park.db (make one: bay book new ...
    """
    with ending(), Book.open(place(name), wait, write) as book:
        yield book
