"""What goes wrong with a book that lasts, other than a refusal of the engine."""
from __future__ import annotations

UNKNOWN = ('whether the round is posted is not known. Post it again with the same number: it is posted then, or '
           'answered as posted already')


class BookError(Exception):
    """A book that cannot be read or written, in one line that says what was done.

    `missing`: there is no such book, or there is one already where a new one is wanted. `known`: whether it is known
    that nothing was posted; where it is not, the line says what to do.

    >>> error = BookError('no such book: park.db', missing=True)
    >>> str(error), error.missing, error.known
    ('no such book: park.db', True, True)
    """

    def __init__(self, message: str, missing: bool = False, known: bool = True) -> None:
        super().__init__(message)
        self.missing, self.known = missing, known


class Moved(BookError):
    """A desk wrote beside a reader who cannot lock, so that what was read may be torn: read it again."""
