"""What can be wrong with a book and its disk: each fault is a line that says what was done, and nothing is lost."""
import os
import random
import shutil
import signal
import sqlite3
import subprocess
import sys
import threading
import time
import unittest
from unittest import mock

from bay_market import Market
from bay_market._c import VERSION
from bay_market.store import Book, BookError, Moved
from bay_market.store.journal import first_sum, next_sum
from bay_market.store.sqlite import Sqlite
from bay_market.store.tables import FORM

from ..bay import CASE_E, FULL, ROOT, Case, here
from . import server
from .places import NOBODY, Other, disk

MARKET = Market([2, 6], [1, 1], [3, 3], [1, 2], [8, 0, 8, 0])
LARGE = Market(range(40), [1] * 40, [9] * 200, range(200), [7] * 8000)
# a desk that takes the book, says so and stands still; when it goes on it posts
FREEZES = '''
import os, signal, sys
from bay_market import Market
from bay_market.store import Book, BookError
book = Book.open(sys.argv[1], wait=2)
taken, book.store.take = book.store.take, None
def take():
    row = taken()
    print('holds', flush=True)
    os.kill(os.getpid(), signal.SIGSTOP)
    return row
book.store.take = take
try:
    print('posted', book.post(Market.from_sheet(open(sys.argv[2], 'rb').read()), 1, 7).entry)
except BookError as error:
    print(error)
'''


class Faults(Case):
    def setUp(self):
        super().setUp()
        self.place = self.path('park.db')

    def book(self, rounds=0, guests=4, stations=4):
        """A book with so many rounds of desk 0."""
        with Book.new(self.place, guests, stations) as book:
            for round_ in range(1, rounds + 1):
                book.post(MARKET, round_)

    def post(self, round_=1, book=None, *more):
        return here('post', '--book', book or self.place, '--desk', '0', '--round', str(round_), *more, CASE_E)

    def sql(self, *statements):
        db = sqlite3.connect(self.place)
        try:
            for statement in statements:
                db.execute(statement)
            db.commit()
        finally:
            db.close()

    def verified(self, place=None, postings=None):
        """That the book verifies, and has so many postings."""
        done = self.ends(0, None, '', here('book', place or self.place, '--verify'))
        self.assertTrue(done.out.startswith('verified\n'), done)
        if postings is not None:
            self.assertIn(f'\n{postings} posting', done.out)


class Files(Faults):
    def test_no_book(self):
        missing = f'no such book: {self.place} (make one: bay book new {self.place} --guests N --stations M)'
        self.ends(2, '', missing, self.post())
        self.ends(2, '', missing, here('book', self.place))
        self.assertFalse(os.path.exists(self.place))
        self.ends(2, '', 'no file, so no book', self.post(1, str(self.folder)))
        self.ends(2, '', 'no such book', self.post(1, self.path('none/park.db')))
        self.ends(2, '', 'no such folder',
                  here('book', 'new', self.path('none/park.db'), '--guests', '1', '--stations', '1'))

    def test_no_database(self):
        for data, line in ((b'', 'is not a book: the file is empty; nothing was changed'),
                           (b'guests and stations\n' * 100, 'is not a book: no SQLite database; nothing was changed')):
            self.file('park.db', data)
            for done in (self.post(), here('book', self.place, '--verify'),
                         here('book', 'copy', self.place, self.path('to.db'))):
                self.ends(3, '', f'{self.place} {line}', done)
            self.assertEqual(self.read('park.db'), data)
        self.assertEqual(os.listdir(self.folder), ['park.db'])

    def test_anothers_database(self):
        self.sql('CREATE TABLE book (a)')
        before = self.read('park.db')
        for done in (self.post(), here('book', self.place)):
            self.ends(3, '', 'is not a book: a SQLite database of something else; nothing was changed', done)
        self.assertEqual(self.read('park.db'), before)

    def test_newer_form(self):
        self.book(1)
        self.sql('PRAGMA user_version = 9')
        for done in (self.post(2), here('book', self.place), here('book', 'copy', self.place, self.path('to.db'))):
            self.ends(3, '', f'is a book of form 9, and bay {VERSION} knows no form above {FORM}: nothing was '
                      'changed; use a newer bay', done)
        self.sql(f'PRAGMA user_version = {FORM}')
        self.verified(postings=1)

    def test_made_once(self):
        """Of eight who make the same book one wins."""
        words = [sys.executable, '-c', 'import sys; from bay_market.store import Book, BookError\n'
                 'try: Book.new(sys.argv[1], int(sys.argv[2]), 4).close(); print("won")\n'
                 'except BookError as error: print(error)', self.place]
        makers = [subprocess.Popen([*words, str(k)], cwd=ROOT / 'python', stdout=subprocess.PIPE, text=True)
                  for k in range(1, 9)]
        said = [maker.communicate()[0] for maker in makers]
        won = [k for k, line in enumerate(said, 1) if line == 'won\n']
        self.assertEqual(len(won), 1, said)
        self.assertEqual(sum('is there already: nothing was changed' in line for line in said), 7, said)
        with Book.open(self.place) as book:
            self.assertEqual(book.state().guests, won[0])
        self.assertEqual(os.listdir(self.folder), ['park.db'])
        self.ends(2, '', 'is there already', here('book', 'new', self.place, '--guests', '1', '--stations', '1'))

    def test_limits(self):
        done = here('book', 'new', self.place, '--guests', '201', '--stations', '1')
        self.ends(1, 'refused 13\n', 'the book has 201 guests', done)
        self.assertEqual(os.listdir(self.folder), [])

    def test_damaged_bytes(self):
        """A changed byte anywhere is found, or is of no matter; never a traceback."""
        self.book(40)
        whole = self.read('park.db')
        with Book.open(self.place) as book:
            state, journal = book.state(), list(book.postings())
        found = {'lines': 0, 'faults': 0, 'none': 0}
        rng = random.Random(7)
        for turn in range(400):
            data = bytearray(whole)
            at = rng.randrange(len(data))
            if turn % 10:
                data[at] ^= 1 << rng.randrange(8)
            else:
                data[at & -4096:(at & -4096) + 4096] = bytes(4096)          # a page
            self.file('park.db', bytes(data))
            try:
                with Book.open(self.place, wait=0, write=False) as book:
                    faults = book.verify().faults
                    found['faults' if faults else 'none'] += 1
                    if not faults:
                        self.assertEqual((book.state()._replace(made=''),
                                          [p._replace(at='', who='') for p in book.postings()]),
                                         (state._replace(made=''), [p._replace(at='', who='') for p in journal]), at)
            except BookError as error:
                found['lines'] += 1
                self.assertIn(self.place, str(error))
            for end in ('-wal', '-shm', '-journal'):
                if os.path.exists(self.place + end):
                    os.unlink(self.place + end)
        print(f'bytes and pages changed: {found}')
        self.assertGreater(min(found.values()), 5)

    def test_damaged_page(self):
        self.book(60)
        with Book.open(self.place) as book:
            (page,), = book.store.rows("SELECT rootpage FROM sqlite_master WHERE name = 'posting'")
        data = bytearray(self.read('park.db'))
        data[4096 * (page - 1):4096 * page] = b'\xff' * 4096
        self.file('park.db', bytes(data))
        done = here('book', self.place, '--verify')
        self.ends(1, None, '', done)
        self.assertRegex(done.out, r'^wrong\nafter entry 0 the journal cannot be read: .* is damaged: database disk '
                         r'image is malformed')
        self.ends(3, '', 'is damaged: database disk image is malformed; nothing was posted; restore it from a copy',
                  self.post(61))
        done = here('book', 'copy', self.place, self.path('to.db'))
        self.ends(3, '', 'does not verify, so it is not copied: ', done)
        self.assertFalse(os.path.exists(self.path('to.db')))

    def test_tampering(self):
        self.book(3)
        self.ends(1, 'refused 11\n', 'nothing is to be done', self.post(3))
        self.verified(postings=3)
        whole = self.read('park.db')
        free = [f'DROP TRIGGER {table}_{what}' for table in ('posting', 'refusal') for what in ('stays', 'lasts')]
        for fault, *statements in (
                ('guest 1: the book has 73, the journal gives 72', "UPDATE book SET charged = '[73,0,0,0]'"),
                ('station 1, kWh sold and paid: the book has 9 and 55, the journal gives 9 and 54',
                 "UPDATE book SET paid = '[55,0,0,0]'"),
                ('the house: the book has 19, the journal gives 18', 'UPDATE book SET house = 19'),
                ('the last round of desk 0: the book has 4, the journal gives 3',
                 "UPDATE book SET last = '[4,0,0,0,0,0,0,0]'"),
                ('postings: the book has 4, the journal gives 3', 'UPDATE book SET entries = 4'),
                ('refusals: the book has 0, the journal gives 1', 'UPDATE book SET refusals = 0'),
                ('the sum: the book has 00, the journal gives', "UPDATE book SET sum = x'00'"),
                ('entry 2 (desk 0, round 2): its sum is not that', *free,
                 'UPDATE posting SET rule = 2 WHERE entry = 2'),
                ('entry 2 (desk 0, round 2): its sum is not that', *free,
                 'UPDATE posting SET sheet = zeroblob(10) WHERE entry = 2'),
                (f'after entry 1 the journal cannot be read: {self.place} is damaged: entry 2 has a field of another',
                 *free, "UPDATE posting SET rule = 'one' WHERE entry = 2"),
                (f'after entry 0 the journal cannot be read: {self.place} is damaged: refusal 1 has a field of another',
                 *free, "UPDATE refusal SET sheet = 'one'"),
                ('entry 2 is missing: the journal goes on with 3', *free, 'DELETE FROM posting WHERE entry = 2'),
                ('postings: the book has 3, the journal gives 2', *free, 'DELETE FROM posting WHERE entry = 3',
                 'DELETE FROM refusal'),
                ('entry 1 is missing: the journal goes on with -1', *free,
                 'UPDATE posting SET entry = -1 WHERE entry = 3'),
                ('refusals: the book has 1, the journal gives 0', *free, 'DELETE FROM refusal'),
                ('refusal 1 (desk 0, round 3) is kept with 12: the engine refuses it with 11', *free,
                 'UPDATE refusal SET number = 12'),
                ('refusal 1 (desk 0, round 4) is kept with 11: the engine posts it', *free,
                 'UPDATE refusal SET round = 4'),
                ('refusal 1 is after entry 9, which is not there', *free, 'UPDATE refusal SET entries = 9'),
                ('its accounts cannot be read', "UPDATE book SET charged = '[73,0,0]'"),
                ('its accounts cannot be read', "UPDATE book SET charged = '[73,0,0,-1]'"),
                ('it has no accounts', 'DELETE FROM book')):
            with self.subTest(fault):
                self.file('park.db', whole)
                self.sql(*statements)
                done = here('book', self.place, '--verify')
                if 'accounts' in fault:
                    self.ends(3, '', fault, done)
                    self.ends(3, '', fault, self.post(4))
                else:
                    self.ends(1, None, '', done)
                    self.assertTrue(done.out.startswith(f'wrong\n{fault}'), done)
                    self.ends(3, '', 'does not verify, so it is not copied',
                              here('book', 'copy', self.place, self.path('to.db')))
        self.file('park.db', whole)
        for statement in ('UPDATE posting SET rule = 2', 'DELETE FROM posting', 'UPDATE refusal SET number = 1',
                          'DELETE FROM refusal'):
            with self.assertRaisesRegex(sqlite3.IntegrityError, 'the journal is never changed'):
                self.sql(statement)

    def test_forged_sums(self):
        """A changed row with all sums made anew: the engine refuses it, or the accounts are others."""
        self.book(3)
        for rule, market, fault in ((7, MARKET, 'entry 2 (desk 0, round 2): the engine refuses it with 18'),
                                    (2, Market([2, 6], [1, 1], [3, 3], [1, 2], [9, 0, 8, 0]), 'the sum on paper'),
                                    (1, Market([2, 2], [1, 1], [3, 3], [1, 2], [9, 0, 8, 0]), 'the house: the book')):
            total = first_sum(4, 4)
            self.sql('DROP TRIGGER IF EXISTS posting_stays')
            for entry in (1, 2, 3):
                words = (entry, 0, entry, rule if entry == 2 else 1, (market if entry == 2 else MARKET).to_sheet())
                total = next_sum(total, *words)
                self.sql(f"UPDATE posting SET rule = {words[3]}, sheet = x'{words[4].hex()}', sum = x'{total.hex()}' "
                         f'WHERE entry = {entry}')
            self.sql(f"UPDATE book SET sum = x'{total.hex()}'")
            found = here('book', self.place, '--verify').out
            if fault == 'the sum on paper':     # the same accounts by another sheet: only the sum that was noted tells
                self.assertIn(f'sum {total.hex()}', found)
            else:
                self.assertTrue(found.startswith(f'wrong\n{fault}'), found)

    def test_no_balance(self):
        self.book(1)
        self.sql("UPDATE book SET house = 7")
        self.assertIn('guests were charged 24, stations paid 18 and the house has 7: these do not add up',
                      here('book', self.place, '--verify').out)

    def test_rollback_mode(self):
        """Where a disk takes no WAL the rollback journal is synced with its folder."""
        self.book(1)
        self.sql('PRAGMA journal_mode = DELETE')
        with Book.open(self.place) as book:
            book.post(MARKET, 2)
            self.assertEqual(book.store.rows('PRAGMA synchronous'), [(3,)])
        self.verified(postings=2)
        os.unlink(self.place)
        self.book(1)
        with Book.open(self.place) as book:
            self.assertEqual(book.store.rows('PRAGMA synchronous') + book.store.rows('PRAGMA journal_mode'),
                             [(2,), ('wal',)])


class Frozen(Faults):
    def frozen(self, place):
        process = subprocess.Popen([sys.executable, '-c', FREEZES, place, CASE_E], cwd=ROOT / 'python',
                                   stdout=subprocess.PIPE, text=True)
        self.addCleanup(process.stdout.close)
        self.addCleanup(process.wait)
        self.addCleanup(process.kill)
        self.assertEqual(process.stdout.readline(), 'holds\n')
        return process

    def test_sqlite(self):
        """The others say so after their time; when its process ends or goes on, all is well."""
        self.book(1)
        for goes_on in (True, False):
            desk = self.frozen(self.place)
            begun = time.monotonic()
            done = self.post(2, None, '--wait', '1')
            self.assertTrue(1 <= time.monotonic() - begun < 20)
            self.ends(3, '', f'{self.place} is busy: other desks held it for 1 s; nothing was posted. Try again; where '
                      'a desk stands still, end its process (fuser ', done)
            self.verified(postings=1 if goes_on else 2)         # readers do not wait
            desk.send_signal(signal.SIGCONT if goes_on else signal.SIGKILL)
            self.assertEqual(desk.stdout.read(), 'posted 2\n' if goes_on else '')
            desk.wait()
        self.ends(0, 'posted desk 0 round 2 entry 3\n', '', self.post(2))
        self.verified(postings=3)

    def test_postgresql(self):
        """The server ends the frozen desk's session after half of its wait, and the others go on."""
        server.wanted()
        postgresql = server.Server(sync=False)
        self.addCleanup(postgresql.stop)
        place = postgresql.url()
        Book.new(place, 4, 4).close()
        desk = self.frozen(place)
        self.ends(0, 'posted desk 0 round 1 entry 1\n', '', self.post(1, place, '--wait', '20'))
        desk.send_signal(signal.SIGCONT)
        self.assertIn('this desk stood still, and the server let the others on; nothing was posted. Try again',
                      desk.stdout.read())
        desk.wait()
        self.verified(place, postings=1)
        # one that holds the book for longer than another waits
        with Book.open(place, wait=60) as holder:
            holder.store.take()
            self.ends(3, '', 'is busy: other desks held it for 1 s; nothing was posted. Try again',
                      self.post(2, place, '--wait', '1'))
        self.ends(0, 'posted desk 0 round 2 entry 2\n', '', self.post(2, place))


class Disks(Faults):
    def filled(self, place, filler):
        """Posts until the disk is full, makes room and goes on."""
        with Book.open(place) as book:
            with self.assertRaises(BookError) as caught:
                for round_ in range(1, 1000):
                    book.post(LARGE, round_)
            self.assertRegex(str(caught.exception),
                             r'^the disk of .* is full; nothing was posted\. Make room and try again$')
            self.assertTrue(caught.exception.known)
            self.assertGreater(round_, 3)
        self.verified(place, postings=round_ - 1)
        # what was closed last made room, so a few more may go in
        words = ('post', '--book', place, '--desk', '0', '--round')
        while (done := here(*words, str(round_), FULL)).status == 0:
            round_ += 1
        self.ends(3, '', 'is full; nothing was posted. Make room and try again', done)
        os.unlink(filler)
        self.ends(0, f'posted desk 0 round {round_} entry {round_}\n', '', here(*words, str(round_), FULL))
        self.verified(place, postings=round_)

    def filler(self, folder, size):
        with open(f'{folder}/filler', 'wb') as file:
            file.write(bytes(size))
        return f'{folder}/filler'

    def test_full_sqlite(self):
        with disk(self.path('small'), '900k'):
            place = self.path('small/park.db')
            Book.new(place, 200, 40).close()
            filler = self.filler(self.path('small'), 300_000)
            self.filled(place, filler)
            rest = os.statvfs(place)
            filler = self.filler(self.path('small'), rest.f_bavail * rest.f_frsize)
            # there is no room for a refusal either, and it is answered all the same
            done = here('post', '--book', place, '--desk', '9', '--round', '1', FULL)
            self.ends(1, 'refused 25\n', 'the refusal could not be kept: ', done)
            done = here('book', 'copy', place, self.path('small/to.db'))
            self.ends(3, '', f'cannot make {self.path("small/to.db")}', done)
            self.assertEqual([name for name in os.listdir(self.path('small')) if 'to.db' in name], [])

    def test_full_postgresql(self):
        server.wanted()
        postgresql = server.Server(sync=False)
        self.addCleanup(postgresql.stop)
        with disk(f'{postgresql.folder}/small', '12m'):
            os.mkdir(f'{postgresql.folder}/small/space')
            subprocess.run(['chown', '-R', 'postgres', f'{postgresql.folder}/small'], check=True)
            postgresql.psql(f"CREATE TABLESPACE small LOCATION '{postgresql.folder}/small/space'")
            postgresql.psql('CREATE DATABASE park TABLESPACE small')
            Book.new(postgresql.url('park'), 200, 40).close()
            rest = os.statvfs(f'{postgresql.folder}/small')
            filler = self.filler(f'{postgresql.folder}/small', rest.f_bavail * rest.f_frsize - 600_000)
            self.filled(postgresql.url('park'), filler)
            postgresql.psql('DROP DATABASE park')
            postgresql.psql('DROP TABLESPACE small')

    def test_read_only_disk(self):
        with disk(self.path('disk'), '2m') as read_only:
            self.place = self.path('disk/park.db')
            self.book(2)
            read_only()
            self.ends(3, '', 'or its folder may not be written by ', self.post(3))
            self.verified(postings=2)
            self.ends(0, None, '', here('book', 'copy', self.place, self.path('copy.db')))
            self.ends(3, '', 'cannot make ',
                      here('book', 'new', self.path('disk/new.db'), '--guests', '1', '--stations', '1'))

    def test_read_only_disk_with_rounds_in_the_wal(self):
        """A disk as a crash left it, mounted read-only: its last rounds are read, or it is said where they are."""
        self.book(1)
        with Book.open(self.place) as book:
            book.post(MARKET, 2)
            with disk(self.path('disk'), '2m') as read_only:
                for end in ('', '-wal'):
                    shutil.copy(self.place + end, self.path('disk'))
                read_only()
                done = here('book', self.path('disk/park.db'), '--verify')
                if done.status == 0:
                    self.assertIn('\n2 postings', done.out)
                else:
                    self.ends(3, '', 'park.db-wal has its last rounds', done)


class Users(Faults):
    def setUp(self):
        super().setUp()
        self.other = Other(self.path('other'))
        os.mkdir(self.path('books'))
        self.place = self.path('books/park.db')

    def test_read_only_file(self):
        self.book(2)
        done = self.other.bay('post', '--book', self.place, '--desk', '0', '--round', '3', CASE_E)
        self.ends(3, '', f'{self.place} or its folder may not be written by nobody@', done)
        self.assertIn(b'; nothing was posted', done.err)
        self.assertIn(b'\n2 postings', self.ends(0, None, '', self.other.bay('book', self.place, '--verify')).out)
        os.chmod(self.place, 0o600)
        self.ends(3, '', f'cannot read {self.place}: Permission denied for nobody@', self.other.bay('book', self.place))
        self.verified(postings=2)

    def test_second_reader(self):
        """A reader under another user, in a folder that all may write, never locks the desks out."""
        os.chmod(self.path('books'), 0o777)
        self.book(1)
        self.assertIn(b'\n1 posting', self.ends(0, None, '', self.other.bay('book', self.place, '--verify')).out)
        self.assertEqual(os.listdir(self.path('books')), ['park.db'])       # and leaves nothing
        with Book.open(self.place) as book:
            for round_ in range(2, 7):
                book.post(MARKET, round_)
                done = self.other.bay('book', self.place, '--verify')
                self.assertIn(b'\n%d posting' % round_, self.ends(0, None, '', done).out)
        self.assertFalse(any(os.stat(self.path(f'books/{name}')).st_uid == NOBODY
                             for name in os.listdir(self.path('books'))))
        self.ends(0, 'posted desk 0 round 7 entry 7\n', '', self.post(7))

    def test_reader_of_a_wal_without_shm(self):
        """As a copy of the two files has it: the reader makes no -shm of its own, and a desk takes up the rounds."""
        os.chmod(self.path('books'), 0o777)
        place, self.place = self.place, self.path('first.db')
        self.book(1)
        with Book.open(self.place) as book:
            book.post(MARKET, 2)
            for end in ('', '-wal'):
                shutil.copy(self.place + end, place + end)
        self.ends(3, '', 'park.db-wal has its last rounds', self.other.bay('book', place, '--verify'))
        self.assertEqual(sorted(os.listdir(self.path('books'))), ['park.db', 'park.db-wal'])
        self.ends(0, 'posted desk 0 round 3 entry 3\n', '', self.post(3, place))

    def test_reader_without_locks(self):
        """It is told when a desk wrote beside it, also where what it read was torn."""
        self.book(1)
        with mock.patch.object(Sqlite, '_may_write', return_value=False):
            reader = Book.open(self.place, write=False)
        with reader:
            self.assertEqual((reader.store.frozen, reader.ledger().last[0], reader.store.moved()), (True, 1, False))
            for round_, torn in ((2, False), (3, True)):
                with self.assertRaisesRegex(Moved, 'was written while it was read: try again'), reader.snapshot():
                    self.ends(0, None, '', self.post(round_))
                    if torn:
                        raise BookError('damaged')

    def test_reader_beside_a_desk_that_comes_and_goes(self):
        """The reader cannot lock; what it says is a book that was there."""
        os.chmod(self.path('books'), 0o777)
        self.book(1)
        stop, rounds = threading.Event(), [1]

        def desk():
            while not stop.is_set():
                with Book.open(self.place) as book:
                    book.post(MARKET, rounds[0] + 1)
                    rounds[0] += 1
                time.sleep(0.03)
        thread = threading.Thread(target=desk)
        thread.start()
        try:
            for _ in range(8):
                low = rounds[0]
                done = self.other.bay('book', self.place, '--verify')
                if done.status == 3:
                    self.assertRegex(done.err, b'is written all the time|park.db-wal has its last rounds')
                    continue
                self.assertEqual(done.status, 0, done)
                self.assertTrue(low <= int(done.out.split()[1].replace(b',', b'')) <= rounds[0] + 1,
                                (low, done, rounds))
        finally:
            stop.set()
            thread.join()
        self.verified(postings=rounds[0])


if __name__ == '__main__':
    unittest.main()
