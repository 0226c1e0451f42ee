"""bay course: bidders of every kind, the report, and a wrong engine."""
import json
import os
import random
import re
import signal
import subprocess
import sys
import time
import unittest
from unittest import mock

from bay_market import Market, clear, what_if
from bay_market.bidder import LINE, LOST
from bay_market.search import Search

from .bay import BAY, EVENING, EXAMPLES, REFUSED, ROOT, TABLE, Case, bay, here, listening
from .wrong_engine import wrong_engine

KINDS = ROOT / 'python/tests/bidder_kinds.py'
COURSE = EXAMPLES / 'course'
HONEST, SHADE, BOOST, CLIMB, FAVOURITE = (
    str(COURSE / f'{name}.py') for name in ('honest', 'shade', 'boost', 'climb', 'favourite'))
SLOW = '20'                 # seconds for an answer of a bidder that does answer, however busy the machine is


def kind(name, *words):
    return f'{name}={sys.executable} {KINDS} {name} {" ".join(words)}'


def living(process):
    """Whether a process has not ended. Who was not waited for has."""
    try:
        with open(f'/proc/{process}/stat', encoding='ascii') as file:
            return file.read().rsplit(')', 1)[1].split()[0] != 'Z'
    except (FileNotFoundError, ProcessLookupError):
        return False


class WithBidders(Case):
    """A file, `started`, where bidders tell the numbers of what they have started."""

    def setUp(self):
        super().setUp()
        self.started = self.path('started')

    def processes(self, count):
        """So many numbers, once they are there."""
        for _ in range(3000):
            told = self.read('started').split() if os.path.exists(self.started) else []
            if len(told) == count:
                return [int(number) for number in told]
            time.sleep(0.01)
        self.fail(f'{count} processes are wanted, {told} were started')

    def all_end(self, count):
        """Those who were killed may still be about to end."""
        processes = self.processes(count)
        for _ in range(500):
            left = [process for process in processes if living(process)]
            if not left:
                return
            time.sleep(0.02)
        for process in left:
            os.kill(process, signal.SIGKILL)
        self.fail(f'of {processes}, {left} are left behind')


class Kinds(WithBidders):
    """Whatever a bidder does, the course ends, and it is told of as what it is."""

    def run_kinds(self, *words):
        """The report, and what was printed, with the bidder's line by its name."""
        done = self.ends(0, None, '', here('course', 'run', *words, '--report', self.path('report.json')))
        rows = {line.split()[0]: line for line in reversed(done.out.splitlines()) if line}
        with open(self.path('report.json'), 'rb') as file:
            report = json.load(file)
        self.ends(0, f'right\n{done.out}', '', here('course', 'check', self.path('report.json')))
        return {one['name']: one for one in report['bidders']}, rows, done.out

    def test_answering(self):
        bidders, rows, out = self.run_kinds(
            kind('honest'), kind('chance'), kind('wrong'), kind('crash'), kind('killed'), kind('gone'), kind('closed'),
            kind('flood'), kind('errors'), kind('hog'), kind('twice'), kind('mutiny'),
            '--rounds', '12', '--limit', SLOW, '--memory', '200')
        for name in ('honest', 'chance', 'twice'):
            self.assertEqual((bidders[name]['answered'], bidders[name]['out']), (12, None), out)
        for name in ('honest', 'twice'):
            self.assertEqual(bidders[name]['by_lying'], 0, out)
        self.assertLess(bidders['chance']['by_lying'], 0)
        self.assertEqual([bidders['wrong'][key] for key in ('wrong', 'answered', 'seated')], [12, 0, 0])
        for name, number, why in (('crash', 4, 'ended with status 1'), ('killed', 2, 'killed by SIGSEGV'),
                                  ('gone', 1, 'ended with status 0'), ('closed', 1, 'closed its output'),
                                  ('flood', 1, f'a line longer than {LINE:,} bytes'),
                                  ('errors', 1, 'ended with status 1'), ('mutiny', 2, LOST),
                                  ('hog', bidders['hog']['out']['round'], 'ended with status 1')):
            with self.subTest(name):
                self.assertEqual((bidders[name]['out']['round'], bidders[name]['out']['why']), (number, why))
                self.assertIn(f'out in round {number}: {why}', rows[name])
        self.assertIn('\ncrash last wrote: ZeroDivisionError: ', out)
        self.assertIn('\nhog last wrote: MemoryError\n', out)
        self.assertEqual(bidders['crash']['answered'], 3)
        self.assertGreater(bidders['hog']['answered'], 1)
        self.assertIn('\nwrong, round 1: "hello" is not "bids 1" and 6 numbers\n', out)

    def test_starting_others(self):
        """What a bidder has started ends with it, in whichever group or session it is."""
        bidders, _, out = self.run_kinds(kind('fork', self.started), kind('daemon', self.started),
                                         kind('swarm', self.started, '32'), '--rounds', '3', '--limit', SLOW)
        for one in bidders.values():
            self.assertEqual((one['answered'], one['by_lying'], one['out']), (3, 0, None), out)
        self.all_end(32)

    def test_wrong_answers(self):
        self.run_kinds(kind('wrong'), '--rounds', '10', '--limit', SLOW)
        with open(self.path('report.json'), 'rb') as file:
            said = [one['bidders'][0]['said'] for one in json.load(file)['played']]
        self.assertEqual(said, [
            '"hello" is not "bids 1" and 6 numbers', 'bid 1 is "-1", not a whole number of 0 to 1000000',
            'bid 1 is "1.5", not a whole number of 0 to 1000000', '"bids 99 0 0 0 0 0 0" is for round 99',
            'bid 1 is "1000001", not a whole number of 0 to 1000000', '"" is not "bids 6" and 6 numbers',
            '"?[31mbids?" is not "bids 7" and 6 numbers', '7 bids, wanted 6',
            f'bid 6 is "{"1" * 20}...", not a whole number of 0 to 1000000', '2 bids, wanted 6'])

    def test_late(self):
        bidders, rows, _ = self.run_kinds(kind('late', '3'), '--rounds', '4', '--limit', '2')
        self.assertEqual((bidders['late']['answered'], bidders['late']['late'], bidders['late']['out']), (3, 1, None))
        self.assertRegex(rows['late'], r'^late +3 +1 +0 ')
        for one in json.loads(self.read('report.json'))['played']:
            entry, market = one['bidders'][0], Market.from_sheet(bytes.fromhex(one['sheet']))
            bids = entry['worths'] if entry['answer'] == 'ok' else [0] * 6
            self.assertEqual(market.row(entry['guest']), bids, 'an answer to another round was taken')

    def test_never_answering(self):
        with mock.patch('bay_market.course.FIRST', 0.2):
            bidders, rows, out = self.run_kinds(kind('mute'), kind('unflushed'), kind('old'), '--rounds', '5',
                                                '--limit', '0.2')
        for name in bidders:
            self.assertEqual((bidders[name]['late'], bidders[name]['out']['round']), (3, 3), out)
            self.assertIn('out in round 3: 3 answers in a row were late (is each one flushed?)', rows[name])

    def test_output_that_is_left_to_another(self):
        with mock.patch('bay_market.course.FIRST', 2):
            bidders, rows, out = self.run_kinds(kind('heir', self.started), '--rounds', '4', '--limit', '0.2')
        self.assertEqual((bidders['heir']['late'], bidders['heir']['out']['round']), (3, 3), out)
        self.all_end(1)

    def test_input_that_is_not_read(self):
        """A pipe takes 64 KiB; three late answers come before that, so that it is filled by patience."""
        with mock.patch('bay_market.course.FIRST', 0.02), mock.patch('bay_market.bidder.PATIENCE', 100000):
            bidders, rows, _ = self.run_kinds(kind('deaf'), '--rounds', '400', '--stations', '40', '--limit', '0.01')
        self.assertIn('does not read its input', rows['deaf'])
        self.assertGreater(bidders['deaf']['late'], 100)

    def test_not_a_program(self):
        text = self.file('text', b'no program')
        os.chmod(text, 0o755)
        self.assertIn('out in round 1: cannot be started: Exec format error',
                      self.ends(0, None, '', here('course', 'run', text, '--rounds', '2')).out)
        for word, said in (('/no/such', 'no such program: /no/such'), (TABLE, 'not a program that may be run: '),
                           ('a=', 'no such program: a='), ("a='", 'No closing quotation'), ('', 'no such program: ')):
            self.ends(2, '', said, here('course', 'run', word))

    def test_environment(self):
        """No secrets of whoever runs the course."""
        show = f'show=sh -c "env >{self.path("env")}"'
        with mock.patch.dict(os.environ, {'SECRET': 'x'}):
            self.ends(0, None, '', here('course', 'run', show, '--rounds', '1'))
        found = self.read('env').decode()
        self.assertNotIn('SECRET', found)
        self.assertIn('PATH=', found)


class Course(WithBidders):
    def test_same_seed_same_bytes(self):
        words = ('course', 'run', HONEST, SHADE, BOOST, FAVOURITE, kind('wrong'), kind('crash'), kind('flood'),
                 '--rounds', '20', '--limit', SLOW)
        for name, seed in (('one', '7'), ('two', '7'), ('other', '8'), ('\udcff', '\udcff')):
            self.ends(0, None, '', here(*words, '--seed', seed, '--report', self.path(name)))
        self.assertEqual(self.read('one'), self.read('two'))
        self.assertNotEqual(self.read('one'), self.read('other'))
        played = json.loads(self.read('one'))['played']
        self.assertEqual(len({one['sheet'] for one in played}), 20)
        self.assertGreater(len({one['bidders'][0]['guest'] for one in played}), 5)
        self.assertEqual(here('course', 'check', self.path('\udcff')).status, 0)
        self.assertEqual(bay(*words, '--seed', '7', '--report', '-').out, self.read('one'))

    def test_paired_gains(self):
        """Every number of the report is the engine's, and no lie pays in a truthful round."""
        for words in (('--rule', '1'), ('--rule', '2', '--guests', '9', '--stations', '13'), ('--quiet',)):
            self.ends(0, None, '', here('course', 'run', HONEST, SHADE, BOOST, FAVOURITE, kind('chance'), '--rounds',
                                        '30', '--limit', SLOW, '--report', self.path('r'), *words))
            report = json.loads(self.read('r'))
            for one in report['played']:
                market = Market.from_sheet(bytes.fromhex(one['sheet']))
                for entry in one['bidders']:
                    guest, worths = entry['guest'], entry['worths']
                    if '--quiet' in words:
                        by_row = [self.quiet_gain(market.with_row(guest, row), guest, worths)
                                  for row in (market.row(guest), worths)]
                        self.assertEqual([entry['gain'], entry['truth']], by_row)
                        continue
                    tried = what_if(market, guest, worths, worths, report['rule'])
                    self.assertEqual((entry['gain'], entry['truth'], (entry['station'], entry['charge'])),
                                     (tried.first_gain, tried.second_gain, tried.first_seat))
                    self.assertLessEqual(entry['gain'], entry['truth'])
                    if entry['name'] == 'honest':
                        self.assertEqual((market.row(guest), entry['gain']), (worths, entry['truth']))

    @staticmethod
    def quiet_gain(market, guest, worths):
        station, charge = clear(market, quiet=True).seats[guest - 1]
        return worths[station - 1] * market.amounts[guest - 1] - charge if station else 0

    def test_the_same_bidder_in_c(self):
        program = self.path('shade')
        subprocess.run(['gcc', '-O2', '-Wall', '-Wextra', '-Werror', '-o', program, COURSE / 'shade.c'], check=True)
        tables = [here('course', 'run', word, '--rounds', '50', '--limit', SLOW, '--stations', '40').out
                  for word in (SHADE, program)]
        self.assertEqual(tables[0], tables[1])

    def test_given_market(self):
        """Bidders keep their guests and learn: in quiet rounds that pays, in truthful ones it does not."""
        by_lying = []
        for words in ((), ('--quiet',)):
            done = here('course', 'run', CLIMB, '--market', EVENING, '--rounds', '150', '--limit', SLOW, '--seed', '53',
                        '--report', self.path('r'), *words)
            self.ends(0, None, '', done)
            report = json.loads(self.read('r'))
            self.assertEqual(len({one['bidders'][0]['guest'] for one in report['played']}), 1)
            by_lying.append(report['bidders'][0]['by_lying'])
            self.ends(0, f'right\n{done.out}', '', here('course', 'check', self.path('r')))
        self.assertLessEqual(by_lying[0], 0)
        self.assertGreater(by_lying[1], 0)

    def test_wrong_use(self):
        for words, said in (((HONEST, '--market', TABLE, '--guests', '3'), '--market, or --guests and --stations'),
                            ((HONEST, HONEST, '--guests', '1'), '2 bidders and 1 guest: each bidder is another guest'),
                            ((HONEST, '--limit', '0'), "'0' is no number of seconds"),
                            ((HONEST, '--limit', 'nan'), "'nan' is no number of seconds"),
                            ((HONEST, '--rounds', '0'), "'0' is no number of rounds"), ((), 'BIDDER')):
            self.ends(2, '', said, here('course', 'run', *words))
        self.ends(1, 'refused 6\n', 'an ask is above', here('course', 'run', HONEST, '--market', REFUSED))
        self.ends(2, '', 'which command of course: course run, course check, course round?', here('course', 'walk'))
        self.ends(2, '', 'which command of course', here('course'))

    def test_ctrl_c(self):
        """Bidders are ended, and then we end by the signal."""
        self.assertEqual(self.stopped(signal.SIGINT), (-signal.SIGINT, b'', b'bay: stopped: nothing is kept\n'))

    def test_killed(self):
        """Where the course itself is killed, the bidders are ended too."""
        self.assertEqual(self.stopped(signal.SIGKILL), (-signal.SIGKILL, b'', b''))

    def stopped(self, number):
        """How a course ends by a signal."""
        with subprocess.Popen([sys.executable, BAY, 'course', 'run', kind('daemon', self.started), kind('mute')],
                              stdout=subprocess.PIPE, stderr=subprocess.PIPE, preexec_fn=listening) as process:
            self.processes(1)
            process.send_signal(number)
            out, err = process.communicate(timeout=60)
        self.all_end(1)
        return process.returncode, out, err


def another(key, value):
    """Another value of a part of a round."""
    if key == 'worths':
        return [worth + 1 for worth in value]
    return {'name': 'x', 'answer': 'late'}[key] if isinstance(value, str) else value + 1


class Report(Case):
    def setUp(self):
        super().setUp()
        self.ends(0, None, '', here('course', 'run', SHADE, kind('wrong'), HONEST, '--rounds', '6', '--limit', SLOW,
                                    '--report', self.path('r.json')))
        self.report = json.loads(self.read('r.json'))

    def check(self, report):
        return here('course', 'check', self.file('changed.json', json.dumps(report).encode()))

    def test_every_number(self):
        """Each number and word of a round and of the table is held to the engine."""
        changed = 0
        for number, one in enumerate(self.report['played']):
            for at, entry in enumerate(one['bidders']):
                for key, value in entry.items():
                    if key == 'said' or (key == 'answer' and value == 'wrong'):
                        continue                # what a bidder said is known from the report alone
                    held = json.loads(json.dumps(self.report))
                    held['played'][number]['bidders'][at][key] = another(key, value)
                    with self.subTest(round=number + 1, bidder=entry['name'], key=key):
                        done = self.check(held)
                        self.assertEqual(done.status, 1, done)
                        self.assertRegex(done.out, rf'^wrong\nround {number + 1}: ')
                    changed += 1
        self.assertGreater(changed, 100)
        for at in range(3):
            for key in ('answered', 'late', 'wrong', 'seated', 'gain', 'truth', 'by_lying'):
                held = json.loads(json.dumps(self.report))
                held['bidders'][at][key] += 1
                name = held['bidders'][at]['name']
                self.ends(1, f'wrong\n{name}: the totals are not those of the rounds\n', '', self.check(held))

    def test_sheets_and_settings(self):
        third = self.report['played'][2]
        sheet, bidders = Market.from_sheet(bytes.fromhex(third['sheet'])), [one['guest'] for one in third['bidders']]
        other = next(guest for guest in range(1, 21) if guest not in bidders)
        changed = sheet.with_row(other, [9] * 6).to_sheet().hex()
        for change, said in ((lambda held: held['played'].pop(), '6 rounds were asked for, 5 were played'),
                             (lambda held: held['played'].reverse(), 'round 1: its number or its bidders are not'),
                             (lambda held: held.update(seed='2'), 'round 1: its sheet is not that of the seed'),
                             (lambda held: held.update(stations=7), 'round 1: its sheet is not that of the seed'),
                             (lambda held: held.update(rule=2), 'by the engine'),
                             (lambda held: held.update(round='quiet'), 'by the engine'),
                             (lambda held: held['played'][2].update(sheet=changed),
                              'round 3: its sheet is not that of the seed')):
            held = json.loads(json.dumps(self.report))
            change(held)
            done = self.check(held)
            self.assertEqual(done.status, 1, done)
            self.assertIn(said, done.out)

    def test_no_report(self):
        for data, said in ((b'', 'not JSON'), (b'[]', 'no object'), (b'{}', '"course" is not there'),
                           (b'\xff', 'not JSON'), (b'{"course": 2}', 'its form is 2, this bay knows form 1'),
                           (b'[' * 100000, 'not JSON')):
            for words in (('check',), ('round', '1', 'out')):
                done = here('course', words[0], self.file('x', data), *words[1:])
                self.ends(2, '', f'is no report of bay course run: {said}', done)
        self.ends(2, '', 'no such file: ', here('course', 'check', self.path('nothing')))
        rng, ended, text = random.Random(4), set(), json.dumps(self.report)
        for _ in range(300):                    # whatever the bytes are, it is a line
            at = rng.randrange(len(text))
            data = text[:at] + rng.choice('0123456789"{}[],:xn ') + text[at + rng.randint(0, 2):]
            done = here('course', 'check', self.file('x', data.encode()))
            self.assertNotIn('a fault of bay itself', done.err)
            self.assertIn(done.status, (0, 1, 2), data)
            ended.add(done.status)
        self.assertLessEqual({1, 2}, ended)

    def test_every_part_is_wanted(self):
        """A report without one of its parts, or with another kind of thing there, is no report."""
        def paths(held, way=()):
            for key, value in (held.items() if isinstance(held, dict) else enumerate(held)):
                yield (*way, key)
                if isinstance(value, (dict, list)):
                    yield from paths(value, (*way, key))
        self.report['played'] = self.report['played'][:1]
        for way in paths(self.report):
            for value in (None, True, 'x', '\x1b', '\ud800', -1, 10 ** 30, [], {}):
                held = json.loads(json.dumps(self.report))
                inner = held
                for key in way[:-1]:
                    inner = inner[key]
                inner[way[-1]] = value
                done = self.check(held)
                self.assertIn(done.status, (0, 1, 2), (way, value, done))
                self.assertNotIn('a fault of bay itself', done.err)
                done = here('course', 'round', self.path('changed.json'), '1', self.path('out.csv'))
                self.assertIn(done.status, (0, 2), (way, value, done))

    def test_round(self):
        out = self.ends(0, None, '', here('course', 'round', self.path('r.json'), '3', self.path('r3.csv'))).out
        market = Market.from_csv(self.read('r3.csv'))
        self.assertEqual(market.to_sheet().hex(), self.report['played'][2]['sheet'])
        self.assertEqual(out.count('\n'), 3)
        entry = self.report['played'][2]['bidders'][0]
        bids = ','.join(map(str, market.row(entry['guest'])))
        self.assertIn(f'shade: guest {entry["guest"]}, ok, bids {bids} for worths ', out)
        self.ends(0, None, '', here('why', '--guest', str(entry['guest']), self.path('r3.csv')))
        self.assertEqual(clear(market).stations[entry['guest'] - 1], entry['station'])
        self.ends(2, '', 'has rounds 1 to 6', here('course', 'round', self.path('r.json'), '7', self.path('r7')))
        self.assertFalse(os.path.exists(self.path('r7')))


class WrongEngine(WithBidders):
    def test_course_stops(self):
        """A difference above 0 in a truthful round: the market is kept, and the engine is said to be wrong."""
        for function, said in (('try', r'guest \d+ gains -?\d+, and -?\d+ by the truth, in a truthful round'),
                               ('clear', r'guest \d+ gains -?\d+ in the clearing and -?\d+ where its row is tried')):
            environment = {**os.environ, 'BAY_MARKET_LIBRARY': wrong_engine(self.folder, function)}
            for name in ('wrong-engine.sheet', 'wrong-engine-2.sheet'):
                done = bay('course', 'run', HONEST, kind('fork', self.started), '--rounds', '50', '--limit', SLOW,
                           env=environment, cwd=self.folder)
                self.assertEqual(done.status, 1, done)
                number = re.fullmatch(rb'wrong engine in round (\d+)\n', done.out).group(1).decode()
                self.assertRegex(done.err.decode(), rf'^bay: the engine is wrong: {said}\. The course stops; the '
                                                    rf'market of round {number} is kept in {name}\n$')
                kept = Market.from_sheet(self.read(name))
                self.assertEqual((kept.n, kept.m), (20, 6))
                self.all_end(1)
                os.unlink(self.started)
            for name in ('wrong-engine.sheet', 'wrong-engine-2.sheet'):
                os.unlink(self.path(name))

    def test_check_stops(self):
        self.ends(0, None, '', here('course', 'run', HONEST, '--rounds', '30', '--limit', SLOW, '--report',
                                    self.path('r')))
        environment = {**os.environ, 'BAY_MARKET_LIBRARY': wrong_engine(self.folder, 'try')}
        done = bay('course', 'check', self.path('r'), env=environment, cwd=self.folder)
        self.ends(1, None, 'the engine is wrong: guest ', done)

    def test_search_tells(self):
        """Gains of rows that are not those of a clearing."""
        for function, by, said in (('gains', 1, 'a row gains 11 among many and 10 in a clearing'),
                                   ('gains', -1, 'a row gains 9 among many and 10 in a clearing')):
            environment = {**os.environ, 'BAY_MARKET_LIBRARY': wrong_engine(self.folder, function, by)}
            done = bay('search', '1', TABLE, '--reports', '3000', env=environment, cwd=self.folder)
            self.ends(1, None, f'the engine is wrong: {said}. Keep the market; the row is ', done)
            self.assertRegex(done.out.decode(), r'^3,000 reports: [^\n]*\n$')
        self.ends(0, None, '', bay('search', '1', TABLE, cwd=self.folder))

    def test_a_lie_that_pays(self):
        """By clearing and gains alike, and only the truth gains less."""
        class Low(Search):
            def __init__(self, *words):
                super().__init__(*words)
                self.truth = self.truth._replace(gain=self.truth.gain - 1)
        with mock.patch('bay_market.commands.searching.Search', Low):
            done = here('search', '1', TABLE, '--reports', '3000')
            self.ends(1, None, 'the engine is wrong: a row gains 10, and the truth 9, in a truthful round. Keep', done)
            self.ends(0, None, '', here('search', '1', TABLE, '--reports', '300', '--quiet'))


if __name__ == '__main__':
    unittest.main()
