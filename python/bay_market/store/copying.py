"""A book made anew at another place from the journal of one: a backup, a move, a raise to the form of today."""
from __future__ import annotations

import os
from itertools import islice
from typing import Any, Iterable, Iterator, List, Optional

from . import state as states
from .book import Book, Place, kind
from .errors import BookError
from .rows import postings, refusals
from .state import State
from .store import Store
from .tables import BOOK, FORM, NEW_BOOK, PAGE, POST, REFUSE
from .verify import Tell, Verified, verify


def copy(place: Place, to: Place, tell: Optional[Tell] = None) -> Verified:
    """Copies a book, of this form or an older one, where it verifies: the journal with its times, names and sums, and
    the accounts that the engine gives by it. The copy is read back and verified before it is there.

    >>> from tempfile import TemporaryDirectory
    >>> with TemporaryDirectory() as folder:
    ...     Book.new(folder + '/park.db', 2, 2).close()
    ...     copy(folder + '/park.db', folder + '/backup.db').faults
    []
    """
    name = os.fspath(place)
    with Book(kind(name)(name, write=False, older=True)) as book, book.snapshot():
        store, state, target = book.store, book.state(), os.fspath(to)
        found = verify(store, state, tell)
        if found.faults:
            raise BookError(f'{store.name} does not verify, so it is not copied: {found.faults[0]}')
        kind(target).make(target, lambda made: _fill(made, store, state))
    return found


def _fill(made: Store, store: Store, state: State) -> None:
    made.write([(NEW_BOOK, [(FORM, *state.row())])])
    for statement, rows in ((POST, postings(store)), (REFUSE, refusals(store))):
        for page in _pages(rows):
            made.write([(statement, page)])
    there = states.read(made.only(made.rows(BOOK[FORM])), made.name)
    faults = verify(made, there).faults + ['the accounts are others'] * (there != state)
    if faults:
        raise BookError(f'{made.name} does not read back as it was written, so nothing is left of it: {faults[0]}')
    store.check_unmoved()


def _pages(rows: Iterable[Any]) -> Iterator[List[Any]]:
    rest = iter(rows)
    while True:
        page = list(islice(rest, PAGE))
        if not page:
            return
        yield page
