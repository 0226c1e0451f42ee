"""bay search: no report pays in a truthful round, whoever asks; what it finds in a quiet one; how fast it is."""
import os
import pty
import random
import re
import select
import signal
import subprocess
import sys
import time
import unittest
from array import array
from collections import Counter
from itertools import combinations
from pathlib import Path

from bay_market import Market, clear, gains, what_if
from bay_market.commands.progress import AFTER
from bay_market.counting import counted
from bay_market.rows import KINDS, rows_of
from bay_market.search import BLOCK, Search
from bay_market.workers import WorkerFailed, cores, shared

from . import draw
from .bay import BAY, EVENING, EXAMPLES, FULL, REFUSED, TABLE, Case, bay, here, listening

QUIET = str(EXAMPLES / 'course/09-quiet.csv')
EVENING_MARKET = Market.from_sheet(Path(EVENING).read_bytes())
LEAST = 20                  # a block of rows goes so many times as fast as a call for each row


class Truthful(unittest.TestCase):
    def test_no_report_pays(self):
        """Of 1,000 random markets; some gains are held to those of both clearings."""
        rng = random.Random(44)
        kinds = set()
        for case in range(1000):
            market = draw.market(rng, rng.randint(1, 12), rng.randint(1, 9))
            guest, rule = rng.randint(1, market.n), rng.choice((1, 2))
            worths = rng.choice((None, draw.row(rng, market.m)))
            with self.subTest(case=case, sheet=market.to_sheet().hex(), guest=guest, worths=worths, rule=rule):
                search = Search(market, guest, worths, rule)
                found = search.found(300, seed=str(case))
                self.assertEqual((found.reports, found.more), (300, 0))
                self.assertLessEqual(found.best, search.truth.gain)
                tried = what_if(market, guest, search.worths, found.row, rule)
                self.assertEqual((tried.second_gain, tried.second_seat), (found.best, search.outcome(found.row)[2:]))
                self.assertGreaterEqual(search.reduced(found.row).gain, found.best)
                kinds.add((found.less > 0, found.equal > 0))
        self.assertLessEqual({(True, True), (False, True)}, kinds)

    def test_gains(self):
        """Rows of a block gain what a clearing with each of them gains."""
        rng = random.Random(45)
        for case in range(30):
            market = draw.market(rng, rng.randint(1, 12), rng.randint(1, 9))
            search = Search(market, rng.randint(1, market.n))
            rows = rows_of('1', case, search.stations, 40)
            found = search.gains(rows)
            for at, gain in enumerate(found):
                self.assertEqual(search.outcome(rows[at * market.m:(at + 1) * market.m]).gain, gain)
            tally = search.tally(0, rows)
            truth = search.truth.gain
            less, equal = sum(gain < truth for gain in found), found.count(truth)
            self.assertEqual(tally[:5], (less, equal, 0, min(found), max(found)))


def crowded(rng):
    """Few bays and small numbers: two or three open stations of one bay, where most guests bid at all."""
    n, m = rng.randint(2, 5), rng.randint(2, 3)
    bids = [[rng.randint(0, 6) for _ in range(m)] + [0] * m for _ in range(n)]
    return Market([0] * m + [1] * m, [1] * (2 * m), [rng.randint(1, 3) for _ in range(n)], list(range(n)), bids)


class Quiet(unittest.TestCase):
    def test_reports_that_pay(self):
        """What is shown is so by a clearing, and no fewer of the changed bids would do."""
        rng = random.Random(46)
        paying = 0
        for case in range(150):
            market, guest = crowded(rng), 1
            search = Search(market, guest, quiet=True)
            found = search.found(200, seed=str(case))
            best = search.reduced(found.row)
            with self.subTest(case=case, sheet=market.to_sheet().hex(), guest=guest):
                self.assertGreaterEqual(best.gain, found.best)
                cleared = clear(market.with_row(guest, best.row), quiet=True)
                self.assertEqual(cleared.seats[guest - 1], (best.station, best.charge))
                worth = search.worths[best.station - 1] * market.amounts[guest - 1] if best.station else 0
                self.assertEqual(worth - best.charge, best.gain)
                changed = [at for at, bid in enumerate(best.row) if bid != search.worths[at]]
                for size in range(len(changed)):
                    for kept in combinations(range(market.m), size):
                        row = [found.row[at] if at in kept else worth for at, worth in enumerate(search.worths)]
                        self.assertLess(search.outcome(row).gain, best.gain)
            paying += best.gain > search.truth.gain
        self.assertGreater(paying, 5)


    def test_fewest(self):
        """Put back one after the other, bids 2 and 3 would stay changed; bid 1 alone does."""
        bids = [[4, 5, 5], [3, 6, 5], [3, 3, 5], [3, 3, 5], [0, 6, 3], [2, 4, 3], [1, 3, 5], [0, 4, 4]]
        market = Market([0] * 3 + [1] * 3, [2] * 6, [3, 3, 3, 1, 2, 1, 2, 1], list(range(8)),
                        [row + [0] * 3 for row in bids])
        search = Search(market, 1, quiet=True)
        self.assertLess(search.truth.gain, 9)
        for row in ([4, 1, 0, 0, 0, 0], [5, 5, 5, 0, 0, 0]):
            self.assertEqual(search.outcome(row).gain, 9)
        self.assertEqual(search.reduced([5, 1, 0, 0, 0, 0]).row, [5, 5, 5, 0, 0, 0])


class Rows(unittest.TestCase):
    def test_kinds(self):
        """Every row is a row of bids; those near the truth have most bids of it, those at the prices meet each mark."""
        search = Search(EVENING_MARKET, 10)
        m = len(search.worths)
        for number, kind in enumerate(KINDS):
            rows = rows_of('1', number, search.stations, 2000)
            self.assertEqual(len(rows), 2000 * m)
            self.assertLessEqual(max(rows), 1_000_000)
            for at, station in enumerate(search.stations):
                seen = rows[at::m]
                if kind == 'near the truth':
                    self.assertGreater(seen.count(station.worth), 1200)
                if kind == 'at the prices':
                    for mark in station.marks:
                        self.assertLessEqual({mark - 1, mark, mark + 1}, set(seen))
                if kind == 'anywhere':
                    self.assertGreater(len(set(seen)), 100)
                    self.assertIn(0, seen)

    def test_seeds(self):
        search = Search(EVENING_MARKET, 10)
        blocks = {rows_of(seed, number, search.stations, 500).tobytes()
                  for seed in ('1', '2', 'ü') for number in range(6)}
        self.assertEqual(len(blocks), 18)
        self.assertEqual(rows_of('1', 4, search.stations, 500), rows_of('1', 4, search.stations, 500))


class Counting(unittest.TestCase):
    def test_counted(self):
        """As by a count of each, whether the lowest bytes tell the numbers apart or not."""
        rng = random.Random(47)
        apart = set()
        for case in range(300):
            kinds = [rng.choice((rng.randint(-3, 3), rng.randint(-10 ** 9, 10 ** 9), 256 * rng.randint(-9, 9)))
                     for _ in range(rng.randint(1, 12))]
            numbers = array('q', rng.choices(kinds, k=rng.randint(1, 200)))
            with self.subTest(case=case, numbers=numbers):
                self.assertEqual(counted(numbers), Counter(numbers))
            apart.add(len({number & 255 for number in numbers}) == len(set(numbers)))
        self.assertEqual(apart, {True, False})


class Workers(unittest.TestCase):
    def test_same_with_any_number(self):
        for quiet, reports in ((False, 5 * BLOCK + 17), (True, 3000)):
            search = Search(EVENING_MARKET, 10, quiet=quiet)
            found = [search.found(reports, '9', processes) for processes in (1, 2, 3)]
            self.assertEqual(found[0].reports, reports)
            self.assertEqual(found[1:], [found[0]] * 2)

    def test_a_process_that_ends(self):
        def work(number):
            if number == 3:
                os._exit(7)
            return [number]
        with self.assertRaises(WorkerFailed):
            list(shared(work, 6, 2))
        with self.assertRaises(ChildProcessError):
            os.waitpid(-1, os.WNOHANG)

    def test_none_is_left(self):
        steps = shared(lambda number: [number], 1000, 2)
        next(steps)
        steps.close()
        with self.assertRaises(ChildProcessError):
            os.waitpid(-1, os.WNOHANG)


class Command(Case):
    def test_truthful(self):
        done = self.ends(0, None, '', here('search', '1', TABLE, '--reports', '5000', '--seed', 'x'))
        self.assertRegex(done.out, r'^the truth gains 10: station 4 charge 15\n'
                                   r'5,000 reports: [\d,]+ gain less, [\d,]+ as much, 0 more; the worst gains -?\d+\n'
                                   r'the best gains as much as the truth\nnone gains more than the truth\n$')
        numbers = [int(word.replace(',', '')) for word in re.findall(r'([\d,]+) (?:gain less|as much|more)', done.out)]
        self.assertEqual(sum(numbers), 5000)
        self.assertEqual(here('search', '1', TABLE, '--reports', '5000', '--seed', 'x').out, done.out)
        self.assertNotEqual(here('search', '1', TABLE, '--reports', '5000', '--seed', 'y').out, done.out)
        self.assertEqual(bay('search', '1', TABLE, '--reports', '5000', '--seed', 'x').out.decode(), done.out)

    def test_quiet(self):
        self.ends(0, None, '', here('search', '1', QUIET))
        done = self.ends(0, None, '', here('search', '1', QUIET, '--quiet', '--reports', '500'))
        self.assertIn('\nthe best gains 1, 1 more than the truth: station 2 charge 1\nits row: ', done.out)
        self.assertNotIn('none gains more', done.out)

    def test_a_best_that_gains_less(self):
        """Of few reports the best may gain less than the truth: it is shown with what was changed."""
        done = here('search', '1', TABLE, '--reports', '1', '--seed', '3')
        self.ends(0, None, '', done)
        self.assertIn('none gains more than the truth\n', done.out)

    def test_worths(self):
        done = self.ends(0, None, '', here('search', '1', TABLE, '--worths', '0,9,0,0,0', '--reports', '300'))
        self.assertIn('the truth gains 29: station 2 charge 16\n', done.out)

    def test_refused(self):
        self.ends(1, 'refused 24\n', 'the market has 5 guests', here('search', '6', TABLE))
        self.ends(1, 'refused 24\n', 'the market has 5 guests', here('search', '0', TABLE))
        self.ends(1, 'refused 6\n', 'an ask is above', here('search', '1', REFUSED))
        self.ends(1, 'refused 5\n', 'list worths', here('search', '1', TABLE, '--worths', '1,2'))
        self.ends(1, 'refused 9\n', 'station 2, list worths', here('search', '1', TABLE, '--worths', '1,1000001,0,0,0'))
        self.ends(2, '', 'is no number of reports', here('search', '1', TABLE, '--reports', '0'))

    def test_ctrl_c(self):
        """What it has is printed first, and no process is left."""
        with subprocess.Popen([sys.executable, BAY, 'search', '3', FULL, '--reports', '1000000000'],
                              stdout=subprocess.PIPE, stderr=subprocess.PIPE, start_new_session=True,
                              preexec_fn=listening) as process:
            while len(self.group(process.pid)) < 1 + (cores() > 1) * cores():
                time.sleep(0.01)
            time.sleep(AFTER + 0.5)             # a terminal would have seen progress by now
            os.killpg(process.pid, signal.SIGINT)
            out, err = process.communicate(timeout=60)
        self.assertEqual(process.returncode, -signal.SIGINT, err)
        self.assertRegex(out.decode(), r'^the truth gains 0: no seat\n[\d,]+ reports: ')
        self.assertRegex(err.decode(), r'^bay: stopped after [\d,]+ of 1,000,000,000 reports\n$')
        self.assertEqual(self.group(process.pid), [])

    @staticmethod
    def group(number):
        """The processes of a group that have not ended."""
        found = []
        for stat in Path('/proc').glob('[0-9]*/stat'):
            try:
                state, _, group = stat.read_text().rsplit(')', 1)[1].split()[:3]
            except (FileNotFoundError, ProcessLookupError):
                continue
            if int(group) == number and state != 'Z':
                found.append(stat.parent.name)
        return found

    def test_progress(self):
        """On a terminal alone; the line is taken away in the end."""
        mine, theirs = pty.openpty()
        said = b''
        with subprocess.Popen([sys.executable, BAY, 'search', '10', EVENING, '--reports', '1000000000'],
                              stdout=subprocess.PIPE, stderr=theirs, preexec_fn=listening) as process:
            os.close(theirs)
            while b' s left, best ' not in said and select.select([mine], [], [], 60)[0]:
                said += os.read(mine, 4096)
            process.send_signal(signal.SIGINT)
            process.communicate(timeout=60)
        said += os.read(mine, 4096)
        os.close(mine)
        self.assertRegex(said.decode(), r'guest 10 \[#*\.+\] \d+%  [\d,]+ of 1,000,000,000 reports, [\d,]+ a second, '
                                        r'\d+ s left, best 2,075')
        self.assertRegex(said.decode(), r'\r\x1b\[Kbay: stopped after [\d,]+ of 1,000,000,000 reports\r\n$')


class Speed(unittest.TestCase):
    def test_blocks(self):
        """Rows a second of a block, all that is done with them included, against a call for each row."""
        rng = random.Random(1)
        for n, m in ((20, 6), (200, 40)):
            asks, bays = [rng.randint(90, 450) for _ in range(m)], [rng.randint(1, 4) for _ in range(m)]
            bids = [rng.choice((0, rng.randint(100, 600))) for _ in range(n * m)]
            market = Market(asks, bays, [rng.randint(5, 80) for _ in range(n)], list(range(n)), bids)
            search = Search(market, 3)
            rows, worths = rows_of('1', 0, search.stations, 500), array('I', search.worths)

            def by_row():
                for at in range(0, len(rows), m):
                    gains(market, 3, worths, rows[at:at + m])

            def by_block():
                for number in range(3):
                    search.tally(number, rows_of('1', number, search.stations, BLOCK))
            one = min(self.spent(by_row) for _ in range(5)) / 500
            many = min(self.spent(by_block) for _ in range(5)) / (3 * BLOCK)
            print(f'search: {1 / many:,.0f} rows a second and core at {m} stations, {one / many:.0f} times as many as '
                  'by a call for each')
            self.assertGreater(one, LEAST * many)

    @staticmethod
    def spent(action):
        start = time.process_time()
        action()
        return time.process_time() - start


if __name__ == '__main__':
    unittest.main()
