"""Whether a book is what its journal says: everything is fed to the engine again and compared."""
from __future__ import annotations

from typing import Any, Callable, Iterator, List, NamedTuple, Optional, Sequence, Tuple

from ..refusal import text_of
from .errors import BookError
from .journal import Posting, Refusal, first_sum, next_sum
from .replay import Replay
from .rows import postings, refusals
from .state import State
from .store import Store

Tell = Callable[[int, int], None]       # postings done, and all


class Verified(NamedTuple):
    """What a replay found. `faults` is empty where the book is what its journal says; the first names the first row
    that differs. `replayed` counts the refusals that had a sheet."""
    guests: int
    stations: int
    postings: int
    refusals: int
    replayed: int
    charged: int
    paid: int
    house: int
    sum: str
    faults: List[str]


class Stop(Exception):
    """The first row that differs: nothing after it can be told."""


def verify(store: Store, state: State, tell: Optional[Tell] = None) -> Verified:
    """Feeds a journal to an empty book, and compares entries, sums, every account and the balance.

    >>> from bay_market.store import Book
    >>> from tempfile import TemporaryDirectory
    >>> with TemporaryDirectory() as folder, Book.new(folder + '/park.db', 2, 1) as book:
    ...     verify(book.store, book.state()).faults
    []
    """
    run = _Run(store, state, tell)
    try:
        run.journal()
        faults = run.differences()
    except Stop as stop:
        faults = [str(stop)]
    except BookError as error:
        faults = [f'after entry {run.count} the journal cannot be read: {error}']
    ledger = state.ledger
    charged, paid = sum(ledger.guests), sum(paid for _, paid in ledger.stations)
    if charged != paid + ledger.house:
        faults.append(f'guests were charged {charged:,}, stations paid {paid:,} and the house has {ledger.house:,}: '
                      'these do not add up')
    return Verified(state.guests, state.stations, run.count, run.refused, run.replayed, charged, paid, ledger.house,
                    state.sum.hex(), faults)


class _Run:
    """A replay, and how far it has come."""

    def __init__(self, store: Store, state: State, tell: Optional[Tell]) -> None:
        self.store, self.state, self.tell = store, state, tell
        self.replay = Replay(state.guests, state.stations)
        self.sum = first_sum(state.guests, state.stations)
        self.count = self.refused = self.replayed = 0
        self._refusals: Iterator[Refusal] = refusals(store)
        self._next: Optional[Refusal] = None

    def journal(self) -> None:
        """Every posting and refusal, in the order in which they were made."""
        self._next = next(self._refusals, None)
        for posting in postings(self.store):
            if self._next is not None:
                self._refused()
            self._posted(posting)
            if self.tell is not None:
                self.tell(self.count, self.state.entries)
        self._refused()
        if self._next is not None:
            raise Stop(f'refusal {self._next.refusal} is after entry {self._next.entries}, which is not there')

    def _posted(self, posting: Posting) -> None:
        entry, desk, round_, rule, sheet, _, _, written = posting
        if entry != self.count + 1:
            raise Stop(f'entry {self.count + 1} is missing: the journal goes on with {entry}')
        self.sum = next_sum(self.sum, entry, desk, round_, rule, sheet)
        if self.sum != written:
            raise Stop(f'entry {entry} (desk {desk}, round {round_}): its sum is not that of the journal up to it')
        answer = self.replay.post(sheet, desk, round_, rule)
        if answer:
            raise Stop(f'entry {entry} (desk {desk}, round {round_}): the engine refuses it with {answer}: '
                       f'{text_of(answer)}')
        self.count = entry

    def _refused(self) -> None:
        """The refusals that came before the next posting."""
        while self._next is not None and self._next.entries <= self.count:
            one = self._next
            if one.refusal != self.refused + 1:
                raise Stop(f'refusal {self.refused + 1} is missing: the journal goes on with {one.refusal}')
            if one.entries != self.count:
                raise Stop(f'refusal {one.refusal} is after entry {one.entries}, the one before it after entry '
                           f'{self.count}')
            if one.sheet is not None:
                self._replay(one, one.sheet)
            self.refused = one.refusal
            self._next = next(self._refusals, None)

    def _replay(self, one: Refusal, sheet: bytes) -> None:
        answer = self.replay.post(sheet, one.desk, one.round, one.rule)
        if answer != one.number:
            says = f'refuses it with {answer}' if answer else 'posts it'
            raise Stop(f'refusal {one.refusal} (desk {one.desk}, round {one.round}) is kept with {one.number}: the '
                       f'engine {says}')
        self.replayed += 1

    def differences(self) -> List[str]:
        """What the book's row has otherwise than the journal gives."""
        state, found, given = self.state, self.state.ledger, self.replay.ledger
        compared: List[Tuple[str, Any, Any]] = [
            ('postings', state.entries, self.count), ('refusals', state.refusals, self.refused),
            ('the sum', state.sum.hex(), self.sum.hex()), ('the house', found.house, given.house)]
        compared += _numbered('guest {}', found.guests, given.guests, 1)
        compared += _numbered('station {}, kWh sold and paid', found.stations, given.stations, 1)
        compared += _numbered('the last round of desk {}', found.last, given.last, 0)
        return [f'{what}: the book has {_shown(has)}, the journal gives {_shown(gives)}'
                for what, has, gives in compared if has != gives]


def _numbered(what: str, found: Sequence[Any], given: Sequence[Any], first: int) -> List[Tuple[str, Any, Any]]:
    return [(what.format(k), *both) for k, both in enumerate(zip(found, given), first)]


def _shown(value: Any) -> str:
    if isinstance(value, tuple):
        return ' and '.join(map(_shown, value))
    return f'{value:,}' if isinstance(value, int) else str(value)
