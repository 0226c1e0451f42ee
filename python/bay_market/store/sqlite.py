"""A book in a file: SQLite, in WAL with a sync for each commit."""
from __future__ import annotations

import os
import random
import sqlite3
import stat
import time
from typing import Any, Callable, List, NoReturn, Sequence, Tuple
from urllib.parse import quote

from .errors import UNKNOWN, BookError
from .journal import who
from .store import WAIT, Row, Store, Writes
from .tables import BOOK, FORM, check_form, tables

MARK = 0x42617942               # 'BayB', the application_id: file(1) and we know the file by it
LOOKS = 0.0005, 0.002           # seconds between looks for a lock: SQLite's own waiting starves desks
TICK = 20_000_000               # ns: two writes nearer than that may leave a file the same time

TYPES = (('KEY PRIMARY', 'INTEGER PRIMARY'),)
VIEWS = '''
CREATE VIEW guest AS SELECT key + 1 AS guest, value AS charged FROM book, json_each(book.charged);
CREATE VIEW station AS SELECT s.key + 1 AS station, s.value AS sold, p.value AS paid
    FROM book, json_each(book.sold) s JOIN json_each(book.paid) p ON p.key = s.key;
CREATE VIEW desk AS SELECT key AS desk, value AS last FROM book, json_each(book.last);
'''
GUARDS = ''.join(f'''
CREATE TRIGGER {table}_stays BEFORE UPDATE ON {table} BEGIN SELECT RAISE(ABORT, 'the journal is never changed'); END;
CREATE TRIGGER {table}_lasts BEFORE DELETE ON {table} BEGIN SELECT RAISE(ABORT, 'the journal is never changed'); END;
''' for table in ('posting', 'refusal'))


class Sqlite(Store):
    """A book in a file. The file is never opened by hand: closing it would drop the locks of every other connection of
    this process."""

    def __init__(self, place: str, wait: float = WAIT, write: bool = True, older: bool = False) -> None:
        self.name, self._path = place, os.path.abspath(place)
        self._wait = wait
        self._look_at_the_file()
        if write and not self._may_write():
            raise self._error('readonly', 'post')
        self._db = self._connected(self._mode(write))
        try:
            self.form = self._known(older)
            journal = self._do('PRAGMA journal_mode')[0][0]
            # a removed rollback journal may come back after a power cut unless its folder is synced too: EXTRA
            self._do(f'PRAGMA synchronous = {"FULL" if journal == "wal" else "EXTRA"}')
            self._do(f'PRAGMA query_only = {int(not write)}')
        except BaseException:
            self._db.close()
            raise

    def _look_at_the_file(self) -> None:
        name = self.name
        try:
            found = os.stat(self._path)
        except (FileNotFoundError, NotADirectoryError):
            raise BookError(f'no such book: {name} (make one: bay book new {name} --guests N --stations M)',
                            missing=True) from None
        except (OSError, ValueError) as error:
            raise BookError(f'cannot read {name}: {getattr(error, "strerror", None) or error}') from None
        if not stat.S_ISREG(found.st_mode):
            raise BookError(f'no file, so no book: {name}', missing=True)
        if not found.st_size:
            raise BookError(f'{name} is not a book: the file is empty; nothing was changed')
        if not os.access(self._path, os.R_OK):
            raise BookError(f'cannot read {name}: Permission denied for {who()}')

    def _may_write(self) -> bool:
        return os.access(self._path, os.W_OK) and os.access(os.path.dirname(self._path), os.W_OK)

    def _mode(self, write: bool) -> str:
        """A wrong name must not make a file: rw. A reader who may not write must leave no -shm of its own, which would
        lock the desks out: it reads the file as one that nobody writes, or with the desks' -shm where there is a -wal.
        One who may write takes both away when it is the last to close."""
        if write or self._may_write():
            return 'mode=rw'
        if os.path.exists(self._path + '-wal'):
            return 'mode=ro&readonly_shm=1'
        self.frozen = True
        try:
            if 0 <= time.time_ns() - os.stat(self._path).st_mtime_ns < TICK:
                time.sleep(TICK / 1e9)
            self._stamp = self._stamped()
        except OSError as error:
            raise BookError(f'cannot read {self.name}: {error.strerror}') from None
        return 'immutable=1'

    def _connected(self, mode: str) -> sqlite3.Connection:
        try:
            return sqlite3.connect(f'file:{quote(os.fsencode(self._path))}?{mode}', timeout=0, isolation_level=None,
                                   uri=True)
        except sqlite3.Error as error:
            raise self._error(str(error), 'read') from None

    def _known(self, older: bool) -> int:
        """The form of the book, if it is a book."""
        mark, form = self._do('PRAGMA application_id')[0][0], self._do('PRAGMA user_version')[0][0]
        if mark != MARK:
            raise BookError(f'{self.name} is not a book: a SQLite database of something else; nothing was changed')
        check_form(self.name, form, older)
        return int(form)

    def _stamped(self) -> Tuple[int, int, int, bool]:
        found = os.stat(self._path)
        return found.st_mtime_ns, found.st_size, found.st_ino, os.path.exists(self._path + '-wal')

    def moved(self) -> bool:
        try:
            return self.frozen and self._stamped() != self._stamp
        except OSError:
            return True

    def _error(self, said: str, doing: str) -> BookError:
        """What SQLite said, as a line that says what was done: doing is read, post or commit."""
        name = self.name
        nothing = '; nothing was posted' if doing != 'read' else ''
        for word, line in (
                ('locked',
                 f'{name} is busy: other desks held it for {self._wait:g} s{nothing}. Try again; where a desk '
                 f'stands still, end its process (fuser {name})'),
                ('full', f'the disk of {name} is full{nothing}. Make room and try again'),
                ('readonly', f'{name} or its folder may not be written by {who()}{nothing}'),
                ('not a database', f'{name} is not a book: no SQLite database; nothing was changed'),
                ('malformed', f'{name} is damaged: {said}{nothing}; restore it from a copy')):
            if word in said:
                return BookError(line)
        if 'unable to open' in said and os.path.exists(self._path + '-wal'):
            return BookError(f'cannot open {name}: {name}-wal has its last rounds, and {who()} may not read them, or '
                             f'not without {name}-shm, which a desk makes{nothing}')
        if doing == 'commit':
            return BookError(f'{name}: {said}; {UNKNOWN}', known=False)
        return BookError(f'{name}: {said}{nothing}')

    def _do(self, statement: str, doing: str = 'read', values: Sequence[Any] = ()) -> List[Row]:
        return self._tried(lambda: self._db.execute(statement, values).fetchall(), doing)

    def _tried(self, action: Callable[[], List[Row]], doing: str) -> List[Row]:
        until = 0.0
        while True:
            try:
                return action()
            except UnicodeError:                # the text of an error that quotes what is damaged
                raise self._error('malformed text', doing) from None
            except (sqlite3.Error, OverflowError) as error:
                until = until or time.monotonic() + self._wait
                if 'locked' not in str(error) or time.monotonic() > until:
                    raise self._error(' '.join(str(error).split()), doing) from None
            time.sleep(random.uniform(*LOOKS))

    def rows(self, statement: str, values: Sequence[Any] = ()) -> List[Row]:
        return self._do(statement, 'read', values)

    def take(self) -> Row:
        self._do('BEGIN IMMEDIATE', 'post')
        return self.only(self._do(BOOK[FORM], 'post'), '; nothing was posted')

    def look(self) -> None:
        self._do('BEGIN')

    def write(self, writes: Writes) -> None:
        for statement, rows in writes:
            self._tried(lambda: self._db.executemany(statement, rows).fetchall(), 'post')

    def commit(self, writes: Writes) -> None:
        self.write(writes)
        self._do('COMMIT', 'commit')

    def rollback(self) -> None:
        try:
            if self._db.in_transaction:
                self._db.execute('ROLLBACK')
        except sqlite3.Error:
            pass                        # it ends with the connection

    def close(self) -> None:
        try:
            self._db.close()
        except sqlite3.Error:
            pass

    @classmethod
    def make(cls, place: str, fill: Callable[[Store], None]) -> None:
        part = f'{place}.{os.urandom(4).hex()}.new'
        if os.path.lexists(place):
            raise BookError(f'{place} is there already: nothing was changed', missing=True)
        try:
            _make(place, part, fill)
            os.link(part, place)        # fails where it is there already: two makers cannot both win
            _sync_folder(place)
        except FileExistsError:
            raise BookError(f'{place} is there already: nothing was changed', missing=True) from None
        except (FileNotFoundError, NotADirectoryError):
            raise BookError(f'no such folder: {os.path.dirname(place)}', missing=True) from None
        except (sqlite3.Error, OSError, ValueError) as error:
            _cannot_make(place, error)
        finally:
            for end in ('', '-journal', '-wal', '-shm'):
                try:
                    os.unlink(part + end)
                except OSError:
                    pass


def _make(place: str, part: str, fill: Callable[[Store], None]) -> None:
    """Makes and fills a book beside its place."""
    os.close(os.open(part, os.O_WRONLY | os.O_CREAT | os.O_EXCL, 0o666))
    db = sqlite3.connect(part, isolation_level=None)
    try:
        db.execute('PRAGMA synchronous = EXTRA')
        db.executescript(f'PRAGMA application_id = {MARK}; PRAGMA user_version = {FORM}; BEGIN;{tables(TYPES)}{VIEWS}'
                         f'{GUARDS}COMMIT;')
    finally:
        db.close()
    made = Sqlite(part)
    made.name = place
    try:
        made._do('BEGIN IMMEDIATE')
        fill(made)
        made._do('COMMIT')
        made._do('PRAGMA journal_mode = WAL')
    finally:
        made.close()


def _sync_folder(place: str) -> None:
    folder = os.open(os.path.dirname(os.path.abspath(place)), os.O_RDONLY | os.O_DIRECTORY)
    try:
        os.fsync(folder)
    finally:
        os.close(folder)


def _cannot_make(place: str, error: Exception) -> NoReturn:
    said = getattr(error, 'strerror', None) or str(error)
    raise BookError(f'cannot make {place}: {said}; nothing is left of it') from None
