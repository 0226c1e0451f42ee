"""Desks that are killed at random moments, one by one and with their server: every round that was answered is there
once, the book verifies, and it equals the plain book."""
import os
import random
import selectors
import signal
import subprocess
import sys
import time
import unittest
from unittest import mock

from bay_market import Ledger
from bay_market.store import Book, postgresql

from ..bay import BAY, ROOT, Case
from . import server
from .desk import market_of, rule_of

GUESTS, STATIONS, DESKS = 200, 40, 8
PYTHON = ROOT / 'python'


def start(*words):
    return subprocess.Popen([sys.executable, *map(str, words)], cwd=PYTHON, stdout=subprocess.PIPE)


class Desks:
    """Eight desks and what they answered; a desk that ends early is started again. Where kills are wanted, a desk is
    killed within 6 ms after one of its next answers, drawn at random: so in the middle of a later posting."""

    def __init__(self, place, rounds, rng, kills=0, stubborn=False):
        self.place, self.rounds, self.more = place, rounds, ['stubborn'] * stubborn
        self.rng, self.wanted, self.left, self.due = rng, kills, {}, {}
        self.running, self.buffers = {}, {}
        self.answered = {desk: {} for desk in range(DESKS)}             # round: entry
        self.kills, self.again, self.failed, self.unknown = 0, 0, [], set()
        self.selector = selectors.DefaultSelector()
        for desk in range(DESKS):
            self.launch(desk)

    def launch(self, desk):
        self.running[desk] = start('-m', 'tests.book.desk', self.place, desk, len(self.answered[desk]) + 1, self.rounds,
                                   *self.more)
        self.buffers[desk] = b''
        self.left[desk] = self.rng.randint(1, 12)
        self.selector.register(self.running[desk].stdout, selectors.EVENT_READ, desk)

    def look(self):
        """Takes what the desks say, and kills those whose time has come."""
        for key, _ in self.selector.select(0.001 if self.due else 0.05):
            data = os.read(key.fd, 65536)
            if data:
                self.take(key.data, data)
                continue
            self.selector.unregister(key.fileobj)
            key.fileobj.close()
            assert self.running.pop(key.data).wait() in (0, -signal.SIGKILL), f'desk {key.data} failed, see above'
            self.due.pop(key.data, None)
            if len(self.answered[key.data]) < self.rounds:
                self.launch(key.data)
        for desk in [desk for desk, due in self.due.items() if time.monotonic() >= due]:
            del self.due[desk]
            self.running[desk].send_signal(signal.SIGKILL)
            self.kills += 1

    def take(self, desk, data):
        *lines, self.buffers[desk] = (self.buffers[desk] + data).split(b'\n')
        for line in lines:
            word, round_, number, *rest = line.decode().split()
            if word == 'failed':
                self.unknown |= {(desk, round_)} if number == '0' else set()
                self.failed += [(int(number), ' '.join(rest))] if rest[0] != 'cannot' else []
                continue
            assert word in ('posted', 'again') and int(round_) == len(self.answered[desk]) + 1, line
            # what was said to be not posted is not posted
            assert word == 'posted' or not self.more or (desk, round_) in self.unknown, line
            self.again += word == 'again'
            self.answered[desk][int(round_)] = int(number)
            self.left[desk] -= 1
            if not self.left[desk] and self.kills + len(self.due) < self.wanted:
                self.due[desk] = time.monotonic() + self.rng.uniform(0, 0.006)

    def end(self):
        for process in self.running.values():
            process.kill()
            process.wait()
            process.stdout.close()
        self.selector.close()


class Killing(Case):
    def checked(self, place, answered, rounds):
        """The book verifies, has each answered round once, with the entry answered, and equals the plain book."""
        with Book.open(place) as book:
            found = book.verify()
            self.assertEqual(found.faults, [])
            self.assertEqual(found.postings, DESKS * rounds)
            there = {}
            for posting in book.postings():
                self.assertNotIn((posting.desk, posting.round), there)
                there[posting.desk, posting.round] = posting.entry
            lost = [(desk, round_) for desk, rounds_ in answered.items() for round_, entry in rounds_.items()
                    if there.get((desk, round_)) != entry]
            self.assertEqual(lost, [])
            plain = Ledger(GUESTS, STATIONS)
            for desk in range(DESKS):
                for round_ in range(1, rounds + 1):
                    plain.post(market_of(desk, round_), round_, desk, rule_of(desk))
            self.assertEqual(book.ledger(), plain)

    def killed(self, place, rounds, kills):
        """Desks killed at random moments."""
        Book.new(place, GUESTS, STATIONS).close()
        begun = time.monotonic()
        desks = Desks(place, rounds, random.Random(4), kills)
        self.addCleanup(desks.end)
        while desks.running:
            desks.look()
        self.assertEqual(desks.failed, [])
        self.assertGreater(desks.kills, kills // 2)
        self.checked(place, desks.answered, rounds)
        self.tell(f'{DESKS * rounds} rounds by {DESKS} desks, {desks.kills} kills, {desks.again} answers lost and '
                  f'found, rounds lost 0; {time.monotonic() - begun:.1f} s')

    def one_by_one(self, place, rounds):
        """One process of the command for each posting, half of them killed at moments of their own."""
        Book.new(place, GUESTS, STATIONS).close()
        rng, begun = random.Random(5), time.monotonic()
        answered, kills, again, usual = {desk: {} for desk in range(DESKS)}, 0, 0, 0.0
        for desk in range(DESKS):
            for round_ in range(1, rounds + 1):
                self.file(f'{desk}-{round_}.sheet', market_of(desk, round_).to_sheet())
        while any(len(done) < rounds for done in answered.values()):
            started = time.monotonic()
            running = {desk: self.post(place, desk, len(done) + 1)
                       for desk, done in answered.items() if len(done) < rounds}
            moments = sorted(rng.uniform(0.3, 1) * usual for _ in range(len(running) // 2 if usual else 0))
            for moment in moments:
                time.sleep(max(0.0, started + moment - time.monotonic()))
                for desk in [desk for desk, process in running.items() if process.poll() is None][:1]:
                    running[desk].kill()
                    running[desk].wait()
            before = kills
            for desk, process in running.items():
                out, err = process.communicate(timeout=120)
                kills += process.returncode < 0
                if out:
                    words = out.decode().split()
                    self.assertEqual(words[:5], ['posted', 'desk', str(desk), 'round', str(len(answered[desk]) + 1)])
                    answered[desk][len(answered[desk]) + 1] = int(words[6])
                    again += b' was posted at ' in err
            # how long all of them take: as the first did, less where they end before they are killed
            usual = usual * (0.6 if kills - before < len(moments) / 2 else 1.1) or time.monotonic() - started
        self.assertGreater(kills, 4)
        self.checked(place, answered, rounds)
        self.tell(f'{DESKS * rounds} rounds, a process each, {kills} kills, {again} answers lost and '
                  f'found, rounds lost 0; {time.monotonic() - begun:.1f} s')

    def tell(self, text):
        print(f'{self._testMethodName[5:]}: {text}')

    def post(self, place, desk, round_):
        words = ('post', '--book', place, '--desk', desk, '--round', round_, '--rule', rule_of(desk), '--again',
                 self.path(f'{desk}-{round_}.sheet'))
        return subprocess.Popen([sys.executable, BAY, *map(str, words)], stdout=subprocess.PIPE, stderr=subprocess.PIPE)


class SqliteKilled(Killing):
    def test_sqlite_desks_killed(self):
        self.killed(self.path('park.db'), 200, kills=200)

    def test_sqlite_processes_killed(self):
        self.one_by_one(self.path('park.db'), 6)


class PostgresqlKilled(Killing):
    @classmethod
    def setUpClass(cls):
        server.wanted()
        cls.server = server.Server()
        cls.addClassCleanup(cls.server.stop)

    def base(self, name):
        """A database for one test: after a crash the server syncs every file that it has."""
        self.addCleanup(self.server.psql, f'DROP DATABASE {name} WITH (FORCE)')
        return self.server.base(name)

    def test_postgresql_desks_killed(self):
        self.killed(self.base('killed'), 200, kills=120)

    def test_postgresql_processes_killed(self):
        self.one_by_one(self.base('processes'), 6)

    def test_postgresql_answered_is_on_the_disk(self):
        """Desks let each other on before the sync: what is answered is on the disk, by whom ever it was committed."""
        place = self.base('synced')
        Book.new(place, GUESTS, STATIONS).close()
        with Book.open(place) as book:
            self.server.hold_writer()
            book.post(market_of(3, 1), 1, 3)
        self.on_its_way(place, 2)
        self.crashed(place, 1)          # so it is told when nobody waits for the disk
        self.server.hold_writer()
        self.on_its_way(place, 2)
        with Book.open(place) as book:
            self.assertIsNotNone(book.post(market_of(3, 2), 2, 3, again=True).before)
        self.crashed(place, 2)
        with Book.open(place) as book:
            book.post_many([(market_of(3, round_), round_) for round_ in (3, 4)], 3)
            book.post(market_of(3, 5), 5, 3)
            self.server.hold_writer()
            with mock.patch.object(book.store, 'take', None):           # the desk is alone
                book.post(market_of(3, 6), 6, 3)
        self.on_its_way(place, 7)
        self.crashed(place, 6)

    def on_its_way(self, place, round_):
        """A round of desk 3, committed and not on the disk."""
        with mock.patch.object(postgresql, 'COMMIT', 'COMMIT'), Book.open(place) as book:
            book.post(market_of(3, round_), round_, 3)

    def crashed(self, place, last):
        self.server.crash()
        self.server.start()
        with Book.open(place) as book:
            self.assertEqual((book.ledger().last[3], book.verify().faults), (last, []))

    def test_postgresql_server_killed(self):
        """The server dies in the middle of commits and is started again; desks post again what was not answered."""
        place, rounds = self.base('crashed'), 40
        Book.new(place, GUESTS, STATIONS).close()
        rng, begun = random.Random(6), time.monotonic()
        desks = Desks(place, rounds, rng, stubborn=True)
        self.addCleanup(desks.end)
        moments = [75 * k + rng.randrange(40) for k in range(4)]        # so many answers before a crash
        for moment in moments:
            while sum(map(len, desks.answered.values())) < moment:
                desks.look()
            time.sleep(rng.uniform(0, 0.006))
            self.server.crash()
            self.server.start()
        while desks.running:
            desks.look()
        unknown = [line for known, line in desks.failed if not known]
        self.assertTrue(all('Post it again with the same number' in line for line in unknown), unknown)
        self.checked(place, desks.answered, rounds)
        self.tell(f'{DESKS * rounds} rounds, the server killed {len(moments)} times, {len(unknown)} answers not known '
                  f'and {desks.again} of them posted, {len(desks.failed) - len(unknown)} said to be not posted, rounds '
                  f'lost 0; {time.monotonic() - begun:.1f} s')


if __name__ == '__main__':
    unittest.main()
