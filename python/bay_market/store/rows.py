"""The rows of the journal, a page at a time."""
from __future__ import annotations

from typing import Iterator, List, Set, Tuple

from .errors import BookError
from .journal import Posting, Refusal
from .store import Row, Store
from .tables import PAGE, POSTINGS, REFUSALS

FIRST = -2 ** 63                # what stands before 1 is read too, so that it is found

Types = Set[Tuple[type, ...]]   # of a row's fields; SQLite itself takes any
POSTING: Types = {(int, int, int, int, bytes, str, str, bytes)}
REFUSAL: Types = {(int, int, int, int, int, int, str, bytes, str, str),
                  (int, int, int, int, int, int, str, type(None), str, str)}


def _pages(store: Store, statement: str) -> Iterator[List[Row]]:
    after = FIRST
    while True:
        page = store.rows(statement, (after,))
        yield page
        if len(page) < PAGE:
            return
        after = page[-1][0]


def _typed(store: Store, row: Row, what: str, types: Types) -> Row:
    if tuple(map(type, row)) not in types:
        raise BookError(f'{store.name} is damaged: {what} {row[0]} has a field of another type; restore it from a copy')
    return row


def postings(store: Store) -> Iterator[Posting]:
    """Every posting, in the order of entries.

    >>> from bay_market.store import Book
    >>> from tempfile import TemporaryDirectory
    >>> with TemporaryDirectory() as folder, Book.new(folder + '/park.db', 2, 1) as book:
    ...     list(postings(book.store))
    []
    """
    for page in _pages(store, POSTINGS):
        for row in page:
            yield Posting._make(_typed(store, row, 'entry', POSTING))


def refusals(store: Store) -> Iterator[Refusal]:
    """Every refusal, in the order in which they were made.

    >>> from bay_market.store import Book
    >>> from tempfile import TemporaryDirectory
    >>> with TemporaryDirectory() as folder, Book.new(folder + '/park.db', 2, 1) as book:
    ...     list(refusals(book.store))
    []
    """
    for page in _pages(store, REFUSALS[store.form]):
        for row in page:
            yield Refusal._make(_typed(store, row, 'refusal', REFUSAL))
