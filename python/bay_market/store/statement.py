"""Statements of one account: what each posting added to it, worked out by the engine from the journal."""
from __future__ import annotations

from typing import Iterator, NamedTuple

from ..clearing import clear
from ..market import Market
from .book import Book
from .journal import Posting


class Charge(NamedTuple):
    """What a posting charged a guest, and its account after that."""
    posting: Posting
    station: int
    charge: int
    account: int


class Sale(NamedTuple):
    """What a posting sold of a station and paid it, and its account after that."""
    posting: Posting
    sold: int
    paid: int
    account: int


def of_guest(book: Book, guest: int) -> Iterator[Charge]:
    """The rounds in which a guest was seated.

    >>> from tempfile import TemporaryDirectory
    >>> market = Market([2, 6], [1, 1], [3, 3], [1, 2], [8, 0, 8, 0])
    >>> with TemporaryDirectory() as folder, Book.new(folder + '/park.db', 2, 2) as book:
    ...     posted = book.post_many([(market, 1), (market, 2)])
    ...     [line[1:] for line in of_guest(book, 1)]
    [(1, 24, 24), (1, 24, 48)]
    """
    account = 0
    for posting in book.postings():
        cleared = clear(Market.from_sheet(posting.sheet), posting.rule)
        if guest <= len(cleared.stations) and cleared.stations[guest - 1]:
            account += cleared.charges[guest - 1]
            yield Charge(posting, cleared.stations[guest - 1], cleared.charges[guest - 1], account)


def of_station(book: Book, station: int) -> Iterator[Sale]:
    """The rounds in which a station sold.

    >>> from tempfile import TemporaryDirectory
    >>> market = Market([2, 6], [1, 1], [3, 3], [1, 2], [8, 0, 8, 0])
    >>> with TemporaryDirectory() as folder, Book.new(folder + '/park.db', 2, 2) as book:
    ...     posted = book.post(market, 1)
    ...     [line[1:] for line in of_station(book, 1)]
    [(3, 18, 18)]
    """
    account = 0
    for posting in book.postings():
        cleared = clear(Market.from_sheet(posting.sheet), posting.rule)
        if station <= len(cleared.sold) and cleared.sold[station - 1]:
            account += cleared.paid[station - 1]
            yield Sale(posting, cleared.sold[station - 1], cleared.paid[station - 1], account)
