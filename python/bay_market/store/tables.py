"""The tables of a book and the statements over them, the same in every store but for the names of three types."""
from __future__ import annotations

from typing import Dict, Tuple

from .._c import VERSION
from .errors import BookError

FORM = 2                        # of the tables; what is of a newer form is not touched
OLDER = (1,)                    # forms that can be copied into a book of this form
PAGE = 500                      # rows of the journal that are read at a time

TABLES = '''
CREATE TABLE book (                     -- one row: what the engine is lent for a posting, and gives back
    one INTEGER PRIMARY KEY CHECK (one = 1),
    form INTEGER NOT NULL,
    guests INTEGER NOT NULL,            -- accounts
    stations INTEGER NOT NULL,
    charged TEXT NOT NULL,              -- JSON lists: of each guest
    sold TEXT NOT NULL,                 -- of each station, kWh
    paid TEXT NOT NULL,
    house BIGINT NOT NULL,
    last TEXT NOT NULL,                 -- the last round of each of eight desks
    entries BIGINT NOT NULL,            -- postings so far
    sum BLOB NOT NULL,                  -- of the last posting
    refusals BIGINT NOT NULL,           -- refusals so far
    made TEXT NOT NULL);
CREATE TABLE posting (
    entry KEY PRIMARY KEY,              -- 1, 2, 3 .. over all desks
    desk INTEGER NOT NULL,
    round BIGINT NOT NULL,
    rule INTEGER NOT NULL,
    sheet BLOB NOT NULL,                -- the engine's written sheet
    at TEXT NOT NULL,                   -- UTC
    who TEXT NOT NULL,                  -- user@host
    sum BLOB NOT NULL,                  -- SHA-256 over the sum before and this posting
    UNIQUE (desk, round));
CREATE TABLE refusal (
    refusal KEY PRIMARY KEY,            -- 1, 2, 3 ..
    number INTEGER NOT NULL,            -- the engine's answer
    entries BIGINT NOT NULL,            -- the postings before it
    desk INTEGER NOT NULL,
    round BIGINT NOT NULL,
    rule INTEGER NOT NULL,
    place TEXT NOT NULL,
    sheet BLOB,                         -- where it was a market; with it the refusal is replayed
    at TEXT NOT NULL,
    who TEXT NOT NULL);
'''

_BOOK = 'SELECT guests, stations, charged, sold, paid, house, last, entries, sum, {refusals}, made FROM book'
_REFUSAL = 'number, entries, desk, round, rule, place, sheet, at, who'

# by form: the one row; the refusals after one, a page at a time
BOOK: Dict[int, str] = {1: _BOOK.format(refusals='(SELECT count(*) FROM refusal)'),
                        2: _BOOK.format(refusals='refusals')}
REFUSALS: Dict[int, str] = {
    1: f'SELECT refusal, {_REFUSAL} FROM (SELECT row_number() OVER (ORDER BY entries, at, number, desk, round) AS '
       f'refusal, {_REFUSAL} FROM refusal) AS numbered WHERE refusal > ? ORDER BY refusal LIMIT {PAGE}',
    2: f'SELECT refusal, {_REFUSAL} FROM refusal WHERE refusal > ? ORDER BY refusal LIMIT {PAGE}'}
_POSTING = 'SELECT entry, desk, round, rule, sheet, at, who, sum FROM posting'
POSTINGS = f'{_POSTING} WHERE entry > ? ORDER BY entry LIMIT {PAGE}'
POSTED = f'{_POSTING} WHERE desk = ? AND round = ?'

NEW_BOOK = 'INSERT INTO book VALUES (1, ?, ?, ?, ?, ?, ?, ?, ?, ?, ?, ?, ?)'
KEEP = 'UPDATE book SET charged = ?, sold = ?, paid = ?, house = ?, last = ?, entries = ?, sum = ?, refusals = ?'
POST = 'INSERT INTO posting VALUES (?, ?, ?, ?, ?, ?, ?, ?)'
REFUSE = 'INSERT INTO refusal VALUES (?, ?, ?, ?, ?, ?, ?, ?, ?, ?)'


def tables(types: Tuple[Tuple[str, str], ...]) -> str:
    """The statements that make the tables, with a store's names of the types.

    >>> 'entry INTEGER PRIMARY KEY' in tables((('KEY PRIMARY', 'INTEGER PRIMARY'),))
    True
    """
    made = TABLES
    for ours, theirs in types:
        made = made.replace(ours, theirs)
    return made


def check_form(name: str, form: int, older: bool) -> None:
    """Raises where a book's form is not one that can be read; an older one only to be copied.

    >>> check_form('park.db', 2, older=False)
    >>> check_form('park.db', 1, older=False)
    Traceback (most recent call last):
    bay_market.store.errors.BookError: park.db is a book of form 1, an older one: bay book copy park.db NEW raises it...
    """
    if form == FORM or (older and form in OLDER):
        return
    if form in OLDER:
        raise BookError(f'{name} is a book of form {form}, an older one: bay book copy {name} NEW raises it to form '
                        f'{FORM}; nothing was changed')
    raise BookError(f'{name} is a book of form {form}, and bay {VERSION} knows no form above {FORM}: nothing was '
                    'changed; use a newer bay')
