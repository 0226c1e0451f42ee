"""A book that lasts: SQLite in a file, PostgreSQL by URL. docs/BOOK.md is for whoever runs it.

A posting is one transaction: the book is taken for writing and read, the engine posts, journal and accounts are
written, committed and synced, and then it is answered. The journal has every posting's sheet, so that the whole book
can be made anew: `verify` does that.

`book` has the verbs, `sqlite` and `postgresql` the two kinds of `store` under them, `tables` their statements,
`journal` the rows and the chain of sums, `state` the accounts, `replay` and `verify` the journal fed to the engine
again, `copying` a book made anew at another place, `statement` what each posting added to one account."""
from .book import Book, NotPosted, Posted
from .copying import copy
from .errors import BookError, Moved
from .verify import Verified

__all__ = ['Book', 'BookError', 'Moved', 'NotPosted', 'Posted', 'Verified', 'copy']
