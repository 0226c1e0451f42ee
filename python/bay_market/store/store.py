"""What a kind of store gives to a book: statements, and transactions that are synced before they are answered."""
from __future__ import annotations

from abc import ABC, abstractmethod
from typing import Any, Callable, List, Sequence, Tuple

from .errors import BookError, Moved

WAIT = 30.0                     # seconds that a posting waits for the other desks

Row = Tuple[Any, ...]
Writes = Sequence[Tuple[str, Sequence[Sequence[Any]]]]      # statements, each with its rows of values


def is_url(place: str) -> bool:
    """Whether a place is a database's URL, and not a file.

    >>> is_url('postgresql://db.example/park'), is_url('park.db')
    (True, False)
    """
    return place.startswith(('postgresql://', 'postgres://'))


class Store(ABC):
    """An open book's connection. `name` is the place as messages have it, without a password; `form` that of the
    tables. Methods raise BookError.

    >>> from tempfile import TemporaryDirectory
    >>> from bay_market.store import Book
    >>> with TemporaryDirectory() as folder, Book.new(folder + '/park.db', 2, 1) as book:
    ...     book.store.form, book.store.rows('SELECT guests FROM book')
    (2, [(2,)])
    """
    name: str
    form: int
    frozen = False              # read as a file that nobody writes, without locks
    swaps = False               # whether there is a way to post without taking the book

    @abstractmethod
    def rows(self, statement: str, values: Sequence[Any] = ()) -> List[Row]:
        """The rows of a statement; its values stand for question marks.

        >>> Store.rows.__isabstractmethod__
        True
        """

    @abstractmethod
    def take(self) -> Row:
        """Begins a transaction that no other desk can write beside, and gives the book's row as the last one left it.

        >>> Store.take.__isabstractmethod__
        True
        """

    @abstractmethod
    def look(self) -> None:
        """Begins a transaction that only reads, all of it as of one moment.

        >>> Store.look.__isabstractmethod__
        True
        """

    @abstractmethod
    def write(self, writes: Writes) -> None:
        """Writes, and commits nothing yet.

        >>> Store.write.__isabstractmethod__
        True
        """

    @abstractmethod
    def commit(self, writes: Writes) -> None:
        """Writes and commits, and returns when that is on the disk.

        >>> Store.commit.__isabstractmethod__
        True
        """

    def swap(self, total: bytes, refusals: int, posting: Row, kept: Row) -> bool:
        """Posts and commits where the book has still this sum and count of refusals, and returns when that is on the
        disk; False where it has not, and nothing was posted.

        >>> Store.swap(None, b'', 0, (), ())
        False
        """
        return False

    @abstractmethod
    def rollback(self) -> None:
        """Ends a transaction, if there is one, and leaves no trace of it.

        >>> Store.rollback.__isabstractmethod__
        True
        """

    @abstractmethod
    def close(self) -> None:
        """Ends the connection.

        >>> Store.close.__isabstractmethod__
        True
        """

    @classmethod
    @abstractmethod
    def make(cls, place: str, fill: Callable[[Store], None]) -> None:
        """Makes a book, which `fill` writes: it is there whole or not at all.

        >>> Store.make.__isabstractmethod__
        True
        """

    def only(self, rows: List[Row], nothing: str = '') -> Row:
        """The book's row, of which there is one.

        >>> Store.only(Store, [(2, 1)])
        (2, 1)
        """
        if len(rows) != 1:
            raise BookError(f'{self.name} is damaged: it has no accounts{nothing}; restore it from a copy')
        return rows[0]

    def moved(self) -> bool:
        """Whether what was read may be torn, because a desk wrote beside a reader who could not lock.

        >>> Store.moved(None)
        False
        """
        return False

    def check_unmoved(self) -> None:
        """Raises Moved where what was read may be torn.

        >>> from tempfile import TemporaryDirectory
        >>> from bay_market.store import Book
        >>> with TemporaryDirectory() as folder, Book.new(folder + '/park.db', 2, 1) as book:
        ...     book.store.check_unmoved()
        """
        if self.moved():
            raise Moved(f'{self.name} was written while it was read: try again')
