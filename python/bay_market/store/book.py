"""A book that lasts. The engine posts; what is here carries and keeps bytes."""
from __future__ import annotations

import os
from contextlib import contextmanager
from functools import cached_property
from types import TracebackType
from typing import Any, Iterator, List, NamedTuple, Optional, Sequence, Tuple, Type, Union

from ..clearing import rule_number
from ..ledger import Ledger, desk_number, round_number
from ..lending import fits
from ..market import Market
from ..refusal import Refused, Where
from . import state as states
from .errors import BookError
from .journal import Posting, Refusal, next_sum, now, place_of, raw_sheet, who
from .rows import postings, refusals
from .state import KEPT, State
from .store import WAIT, Row, Store, is_url
from .tables import BOOK, FORM, KEEP, NEW_BOOK, POST, POSTED, REFUSE
from .verify import Tell, Verified, verify

Place = Union[str, 'os.PathLike[str]']


class Posted(NamedTuple):
    """A posted round. `before` is the time of a posting that was there before: its answer was lost."""
    desk: int
    round: int
    entry: int
    sum: str
    before: Optional[str] = None


class NotPosted(Refused):
    """A posting that the engine refused. `posted` has the rounds of the same call that were posted before it; `unkept`
    says why the refusal could not be kept, where it could not."""

    def __init__(self, number: int, where: Where, posted: Sequence[Posted] = (), unkept: str = '') -> None:
        super().__init__(number, where)
        self.posted, self.unkept = list(posted), unkept

    def __reduce__(self) -> Tuple[Any, ...]:
        return NotPosted, (self.number, self.where, self.posted, self.unkept)


def kind(place: str) -> Any:
    """The kind of store that a place is of; its module is imported when it is asked for.

    >>> kind('park.db').__name__, kind('postgresql://db.example/park').__name__
    ('Sqlite', 'Postgresql')
    """
    if is_url(place):
        from .postgresql import Postgresql
        return Postgresql
    from .sqlite import Sqlite
    return Sqlite


class Book:
    """A book in a file, or in a PostgreSQL database by its URL.

    >>> from tempfile import TemporaryDirectory
    >>> case_e = Market([2, 6], [1, 1], [3, 3], [1, 2], [8, 0, 8, 0])
    >>> with TemporaryDirectory() as folder, Book.new(folder + '/park.db', guests=200, stations=40) as book:
    ...     posted = book.post(case_e, round=1, desk=3)
    ...     posted.entry, book.ledger().house, book.verify().faults
    (1, 6, [])
    """

    def __init__(self, store: Store) -> None:
        self.store = store
        self._held: Optional[Tuple[Row, State]] = None      # as this connection left it
        self._alone = False                                 # nobody else wrote before its last posting

    @staticmethod
    def open(place: Place, wait: float = WAIT, write: bool = True) -> Book:
        """An existing book. `wait` is for how many seconds a posting waits for other desks; with `write=False` it is
        only read.

        >>> Book.open('/nowhere/park.db')
        Traceback (most recent call last):
        bay_market.store.errors.BookError: no such book: /nowhere/park.db (make one: bay book new ...
        """
        name = os.fspath(place)
        return Book(kind(name)(name, wait, write))

    @staticmethod
    def new(place: Place, guests: int, stations: int) -> Book:
        """Makes an empty book. The engine says whether a book may have that many accounts.

        >>> Book.new('park.db', 201, 40)
        Traceback (most recent call last):
        bay_market.refusal.Refused: refused 13: ...: the book has 201 guests, 40 stations and 8 desks, ...
        """
        for what, count in (('guests', guests), ('stations', stations)):
            if not fits(count, 65535):
                raise ValueError(f'{what}: {count!r:.60} is not a whole number of 0 to 65535')
        Ledger(guests, stations).post(Market([0], [1], [], [], []), 1)
        made = states.empty(guests, stations)
        name = os.fspath(place)
        kind(name).make(name, lambda store: store.write([(NEW_BOOK, [(FORM, *made.row())])]))
        return Book.open(name)

    def __enter__(self) -> Book:
        return self

    def __exit__(self, kind: Optional[Type[BaseException]], error: Optional[BaseException],
                 trace: Optional[TracebackType]) -> None:
        self.close()

    def close(self) -> None:
        """Ends the connection.

        >>> from tempfile import TemporaryDirectory
        >>> with TemporaryDirectory() as folder:
        ...     Book.new(folder + '/park.db', 2, 1).close()
        """
        self.store.close()

    # posting

    def post(self, market: Market, round: int, desk: int = 0, rule: int = 1, again: bool = False) -> Posted:
        """Posts a round, and returns when it is on the disk. Raises NotPosted where the engine refuses, which is kept,
        and BookError. With `again` a round that is posted already, with this very sheet and rule, is answered as
        posted.

        >>> from tempfile import TemporaryDirectory
        >>> market = Market([2, 6], [1, 1], [3, 3], [1, 2], [8, 0, 8, 0])
        >>> with TemporaryDirectory() as folder, Book.new(folder + '/park.db', 2, 2) as book:
        ...     first, second = book.post(market, 1), book.post(market, 1, again=True)
        ...     first.entry, first.before, second.entry, second.before is None
        (1, None, 1, False)
        """
        return self.post_many([(market, round)], desk, rule, again)[0]

    def post_many(self, rounds: Sequence[Tuple[Market, int]], desk: int = 0, rule: int = 1,
                  again: bool = False) -> List[Posted]:
        """Several rounds of a desk in one transaction, with one sync. Where one is refused, those before it are posted,
        and the exception has them.

        >>> from tempfile import TemporaryDirectory
        >>> market = Market([2, 6], [1, 1], [3, 3], [1, 2], [8, 0, 8, 0])
        >>> with TemporaryDirectory() as folder, Book.new(folder + '/park.db', 2, 2) as book:
        ...     [posted.entry for posted in book.post_many([(market, 1), (market, 2)], desk=3)]
        ...     book.post_many([(market, 3), (market, 5)], desk=3)
        Traceback (most recent call last):
        bay_market.store.book.NotPosted: refused 11: ...: desk 3: its last round is 3, so round 4 is next
        """
        try:
            if self._alone and self.store.swaps and len(rounds) == 1:
                done = self._swapped(rounds, desk, rule)
                if done:
                    return done
            batch = self._batch(desk, rule, again)
            refused = batch.post(rounds)
            if refused is None:
                self.store.commit(batch.writes())
            else:
                refused.unkept = self._commit_refused(batch)
        except BaseException:
            self.store.rollback()
            raise
        if refused is not None:
            raise refused
        self._held = batch.left
        return batch.done

    def _swapped(self, rounds: Sequence[Tuple[Market, int]], desk: int, rule: int) -> List[Posted]:
        """Posts a round to the book as this connection left it; nothing where it is refused or the book is another."""
        held, self._held, self._alone = self._held, None, False
        if held is None:
            return []
        batch = _Batch(self.store, held[1], desk, rule, again=False)
        if batch.post(rounds) is None and self.store.swap(held[1].sum, held[1].refusals, *batch.swap()):
            self._held, self._alone = batch.left, True
            return batch.done
        return []

    def _batch(self, desk: int, rule: int, again: bool) -> _Batch:
        """Takes the book. A process that posts on parses no accounts that it wrote itself."""
        held, self._held = self._held, None
        row = self.store.take()
        self._alone = held is not None and held[0] == row
        before = held[1] if held is not None and self._alone else states.read(row, self.store.name)
        return _Batch(self.store, before, desk, rule, again)

    def _commit_refused(self, batch: _Batch) -> str:
        """Commits a refusal and what was posted before it. A refusal that cannot be kept is answered all the same."""
        try:
            self.store.commit(batch.writes())
            return ''
        except BookError as error:
            if any(one.before is None for one in batch.done):
                raise
            self.store.rollback()
            return str(error)

    def refuse(self, refused: Refused, round: int, desk: int = 0, rule: int = 1) -> None:
        """Keeps the refusal of what was no market at all.

        >>> from tempfile import TemporaryDirectory
        >>> with TemporaryDirectory() as folder, Book.new(folder + '/park.db', 2, 2) as book:
        ...     book.refuse(Refused(22), round=1)
        ...     [refusal.number for refusal in book.refusals()]
        [22]
        """
        try:
            batch = self._batch(desk, rule, again=False)
            batch.keep(refused, None, round)
            self.store.commit(batch.writes())
        except BaseException:
            self.store.rollback()
            raise

    # reading

    def state(self) -> State:
        """The accounts with the count of postings and refusals and the sum over the journal.

        >>> from tempfile import TemporaryDirectory
        >>> with TemporaryDirectory() as folder, Book.new(folder + '/park.db', 2, 2) as book:
        ...     book.state().entries
        0
        """
        return states.read(self.store.only(self.store.rows(BOOK[self.store.form])), self.store.name)

    def ledger(self) -> Ledger:
        """The accounts.

        >>> from tempfile import TemporaryDirectory
        >>> with TemporaryDirectory() as folder, Book.new(folder + '/park.db', 2, 2) as book:
        ...     book.ledger().last
        [0, 0, 0, 0, 0, 0, 0, 0]
        """
        return self.state().ledger

    def postings(self) -> Iterator[Posting]:
        """The journal, in the order of its entries.

        >>> from tempfile import TemporaryDirectory
        >>> market = Market([2, 6], [1, 1], [3, 3], [1, 2], [8, 0, 8, 0])
        >>> with TemporaryDirectory() as folder, Book.new(folder + '/park.db', 2, 2) as book:
        ...     posted = book.post(market, 1)
        ...     [(one.entry, one.sum.hex() == posted.sum) for one in book.postings()]
        [(1, True)]
        """
        return postings(self.store)

    def refusals(self) -> Iterator[Refusal]:
        """The refusals, in the order in which they were made.

        >>> from tempfile import TemporaryDirectory
        >>> with TemporaryDirectory() as folder, Book.new(folder + '/park.db', 2, 2) as book:
        ...     list(book.refusals())
        []
        """
        return refusals(self.store)

    def verify(self, tell: Optional[Tell] = None) -> Verified:
        """Feeds the journal to an empty book through the engine and compares everything. `tell` is called after each
        posting with the count so far and the count of all.

        >>> from tempfile import TemporaryDirectory
        >>> with TemporaryDirectory() as folder, Book.new(folder + '/park.db', 2, 2) as book:
        ...     book.verify().faults
        []
        """
        with self.snapshot():
            return verify(self.store, self.state(), tell)

    @contextmanager
    def snapshot(self) -> Iterator[None]:
        """What is read inside is as of one moment, whatever the desks post meanwhile. Who may not write the file cannot
        lock it: Moved says that a desk wrote.

        >>> from tempfile import TemporaryDirectory
        >>> with TemporaryDirectory() as folder, Book.new(folder + '/park.db', 2, 2) as book, book.snapshot():
        ...     book.state().entries == len(list(book.postings()))
        True
        """
        self.store.look()
        failed: Optional[BookError] = None
        try:
            yield
        except BookError as error:
            failed = error
        finally:
            self.store.rollback()
        self.store.check_unmoved()
        if failed is not None:
            raise failed


class _Batch:
    """The rounds of one transaction, and what they write."""

    def __init__(self, store: Store, before: State, desk: int, rule: int, again: bool) -> None:
        self._store, self._before, self._desk, self._rule, self._again = store, before, desk, rule, again
        self._lent = desk_number(desk), rule_number(rule)           # of a posted round they are what was given
        self._ledger, self._entries, self._sum = before.ledger, before.entries, before.sum
        self._at = now()
        self._postings: List[Posting] = []
        self._refusals: List[Refusal] = []
        self.done: List[Posted] = []

    def post(self, rounds: Sequence[Tuple[Market, int]]) -> Optional[NotPosted]:
        """Posts round after round; gives the first refusal."""
        for market, round_ in rounds:
            try:
                self._ledger.post(market, round_, self._desk, self._rule)
            except Refused as refused:
                before, note = self._looked_up(market, round_) if refused.number == 11 else (None, '')
                if before is not None and self._again:
                    self.done.append(before)
                    continue
                self.keep(refused, market, round_)
                where = refused.where._replace(detail=refused.where.detail + note)
                return NotPosted(refused.number, where, self.done)
            self._enter(market, round_)
        return None

    def _enter(self, market: Market, round: int) -> None:
        sheet, entry = market.to_sheet(), self._entries + 1
        (desk, rule), number = self._lent, round_number(round)
        self._sum = next_sum(self._sum, entry, desk, number, rule, sheet)
        self._entries = entry
        self._postings.append(Posting(entry, desk, number, rule, sheet, self._at, who(), self._sum))
        self.done.append(Posted(desk, number, entry, self._sum.hex()))

    def _looked_up(self, market: Market, round: int) -> Tuple[Optional[Posted], str]:
        """The posting of this desk and round, where this very sheet and rule made it, and what there is to say."""
        rows = self._store.rows(POSTED, (self._lent[0], round_number(round)))
        if not rows:
            return None, ''
        found = Posting._make(rows[0])
        others = [word for word, other in (('sheet', found.sheet != market.to_sheet()),
                                           ('rule', found.rule != self._rule)) if other]
        if others:
            return None, f'; round {round} was posted at {found.at} with another {" and another ".join(others)}'
        return (Posted(found.desk, found.round, found.entry, found.sum.hex(), found.at),
                f'; round {round} was posted at {found.at} with this very sheet and rule: nothing is to be done')

    def keep(self, refused: Refused, market: Optional[Market], round: int) -> None:
        """Keeps a refusal, by the numbers that the engine was lent."""
        self._refusals.append(Refusal(
            self._before.refusals + 1, refused.number, self._entries, self._lent[0], round_number(round), self._lent[1],
            place_of(refused), None if market is None else raw_sheet(market), self._at, who()))

    @cached_property
    def left(self) -> Tuple[Row, State]:
        """The book after the rounds: its row, and what it says."""
        after = self._before._replace(entries=self._entries, sum=self._sum,
                                      refusals=self._before.refusals + len(self._refusals))
        return after.row(), after

    def swap(self) -> Tuple[Row, Row]:
        """The journal's row of one round, and the accounts."""
        return self._postings[0], self.left[0][KEPT]

    def writes(self) -> List[Tuple[str, List[Row]]]:
        """Journal and accounts, in the order in which they are written."""
        rows: List[Tuple[str, List[Row]]] = [(POST, [*self._postings]), (REFUSE, [*self._refusals])]
        if self._postings or self._refusals:
            rows.append((KEEP, [self.left[0][KEPT]]))
        return [(statement, values) for statement, values in rows if values]
