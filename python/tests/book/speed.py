"""How fast a book is: postings against bare INSERTs of the same bytes in the same mode, one after the other in turns,
so that a slow disk is slow for both; several together; eight desks at once; a replay.

python3 -m tests.book.speed [FOLDER]

A disk may sync in less than a millisecond and soon after in four: what a sync takes is printed beside the figures."""
import multiprocessing
import os
import pathlib
import sqlite3
import statistics
import sys
import tempfile
import time

from bay_market import Market
from bay_market.store import Book
from bay_market.store.journal import now, who

from ..bay import EVENING, FULL
from . import server

TURNS, TOGETHER, DESKS, ROUNDS, REPLAYED = 180, 50, 8, 60, 20_000
BARE = ('CREATE TABLE bare (entry BIGINT PRIMARY KEY, desk INTEGER, round BIGINT, rule INTEGER, sheet {}, at TEXT, '
        'who TEXT, sum {})')
INSERT = 'INSERT INTO bare VALUES (?, ?, ?, ?, ?, ?, ?, ?)'


def timed(action):
    begun = time.perf_counter()
    action()
    return time.perf_counter() - begun


def synced(folder):
    """The median of a sync of 4 KiB, in ms."""
    path = os.path.join(folder, 'sync')
    with open(path, 'wb', buffering=0) as file:
        times = []
        for _ in range(100):
            file.write(bytes(4096))
            times.append(timed(lambda: os.fdatasync(file.fileno())))
    os.unlink(path)
    return 1e3 * statistics.median(times)


def sqlite_bare(path, mode):
    db = sqlite3.connect(path, isolation_level=None)
    db.execute(f'PRAGMA journal_mode = {mode}')
    db.execute(f'PRAGMA synchronous = {"FULL" if mode == "WAL" else "EXTRA"}')
    db.execute(BARE.format('BLOB', 'BLOB'))
    return lambda row: db.execute(INSERT, row)


def postgresql_bare(url):
    import psycopg
    db = psycopg.connect(url, autocommit=True)
    db.execute('SET synchronous_commit TO on')
    db.execute(BARE.format('BYTEA', 'BYTEA') + '; ALTER TABLE bare ALTER sheet SET STORAGE EXTERNAL')
    return lambda row: db.execute(INSERT.replace('?', '%s'), row)


def compare(name, book, bare, market, most):
    """Ours and the bare ones in turns; then so many together."""
    sheet, ours, plain, done = market.to_sheet(), [], [], book.ledger().last[3]
    for k in range(1, TURNS + 1):
        plain.append(timed(lambda: bare((k, 3, k, 1, sheet, now(), who(), b's' * 32))))
        ours.append(timed(lambda: book.post(market, done + k, 3)))
    done += TURNS
    together = []
    for _ in range(7):
        together.append(timed(lambda: book.post_many([(market, done + 1 + k) for k in range(TOGETHER)], 3)) / TOGETHER)
        done += TOGETHER
    one, other, many = map(statistics.median, (ours, plain, together))
    print(f'{name}: a posting {1e3 * one:.2f} ms, a bare INSERT {1e3 * other:.2f}: {one / other:.2f} (at most {most}; '
          f'means {statistics.mean(ours) / statistics.mean(plain):.2f}); {TOGETHER} together {1e3 * many:.3f} ms each, '
          f'{one / many:.0f} times as fast (at least 10)', flush=True)


def desk(place, sheet, number, barrier, answers):
    """A desk at full speed: the longest wait, and the time of all."""
    waits, market = [], Market.from_sheet(sheet)
    with Book.open(place) as book:
        barrier.wait()
        begun = time.perf_counter()
        for round_ in range(1, ROUNDS + 1):
            waits.append(timed(lambda: book.post(market, round_, number)))
        answers.put((time.perf_counter() - begun, max(waits)))


def desks(name, place, market):
    """Eight desks at once."""
    Book.new(place, 200, 40).close()
    barrier, answers = multiprocessing.Barrier(DESKS), multiprocessing.Queue()
    processes = [multiprocessing.Process(target=desk, args=(place, market.to_sheet(), k, barrier, answers))
                 for k in range(DESKS)]
    for process in processes:
        process.start()
    found = [answers.get() for _ in processes]
    for process in processes:
        process.join()
    spent, longest = (max(times) for times in zip(*found))
    print(f'{name}: eight desks at once {DESKS * ROUNDS / spent:.0f} postings a second (at least 250 where a sync '
          f'takes 4 ms), the longest wait {longest:.2f} s (at most 2)', flush=True)


def replays(name, place, market):
    with Book.new(place, 200, 40) as book:
        for first in range(1, REPLAYED + 1, 1000):
            book.post_many([(market, first + k) for k in range(1000)], 3)
        times = [timed(book.verify) for _ in range(3)]
    print(f'{name}: a replay {REPLAYED / statistics.median(times):,.0f} postings of {market.n} by {market.m} a second '
          '(at least 25,000)', flush=True)


def conditions(folder):
    print(f'a sync {synced(folder):.2f} ms, load {os.getloadavg()[0]:.1f} on {os.cpu_count()} processors', flush=True)


def main(folder=None):
    markets = [Market.from_bytes(pathlib.Path(path).read_bytes()) for path in (EVENING, FULL)]
    with tempfile.TemporaryDirectory(dir=folder) as work:
        conditions(work)
        for market in markets:
            size = f'{market.n} by {market.m}'
            for mode in ('WAL', 'DELETE'):
                place = f'{work}/{mode}{market.n}.db'
                Book.new(place, 200, 40).close()
                if mode != 'WAL':
                    sqlite3.connect(place).execute(f'PRAGMA journal_mode = {mode}').connection.close()
                with Book.open(place) as book:
                    compare(f'SQLite {mode} {size}', book, sqlite_bare(f'{place}-bare', mode), market, 1.3)
        conditions(work)
        desks('SQLite', f'{work}/desks.db', markets[0])
        replays('SQLite', f'{work}/replay.db', markets[0])
        if server.missing():
            print(f'not installed: {server.missing()}')
            return
        one = server.Server(segment=16)             # as servers have it
        try:
            conditions(work)
            for market in markets:
                url = one.base(f'speed{market.n}')
                with Book.new(url, 200, 40) as book:
                    compare(f'PostgreSQL {market.n} by {market.m}', book, postgresql_bare(url), market, 1.2)
            conditions(work)
            desks('PostgreSQL', one.base('desks'), markets[0])
            replays('PostgreSQL', one.base('replay'), markets[0])
        finally:
            one.stop()
        conditions(work)


if __name__ == '__main__':
    main(*sys.argv[1:])
