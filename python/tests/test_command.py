"""Every command and option: status, standard output, standard error."""
import json
import random
import subprocess
import unittest

from bay_market import CODES, Market, clear, explain, gains, join, menu, what_if
from bay_market.commands.parser import COMMANDS

from . import draw
from .bay import BAY, CASE_E, EVENING, EXAMPLES, FLEET, FULL, REFUSED, ROOT, TABLE, Case, bay, here

PROGRAM = ROOT / 'prebuilt/x86_64-linux/clear'


def program(sheet, *words):
    """What the proved program prints."""
    return subprocess.run([PROGRAM, *words], input=sheet, stdout=subprocess.PIPE, stderr=subprocess.DEVNULL).stdout


class AsClear(Case):
    """bay clear and bay why print the lines of ./clear, byte for byte."""

    def test_random_markets(self):
        rng = random.Random(21)
        for case in range(150):
            held = draw.market(rng)
            if rng.random() < 0.2:
                held = draw.market(rng, 200, 40)
            sheet, text = held.to_sheet(), held.to_csv()
            rule = rng.choice('12')
            paths = self.file('m.sheet', sheet), self.file('m.csv', text)
            for page in ((), ('--quiet',), ('--why',)):
                ours = ('why',) if page == ('--why',) else ('clear', *page)
                theirs = program(sheet, *page, '--rule', rule)
                for path in paths:
                    with self.subTest(case=case, page=page, rule=rule, sheet=sheet.hex()):
                        self.assertEqual(here(*ours, '--rule', rule, path).out.encode(), theirs)

    def test_refused_markets(self):
        rng = random.Random(22)
        refused = 0
        for case in range(250):
            sheet = bytearray(draw.market(rng, rng.randint(1, 4), rng.randint(1, 4)).to_sheet())
            for _ in range(rng.randint(1, 3)):
                sheet[rng.randrange(4, len(sheet))] = rng.choice((0, 1, 255))
            sheet = bytes(sheet[:len(sheet) - rng.choice((0, 0, 1))] + rng.choice((b'', b'', b'x')))
            done, theirs = here('clear', self.file('m', sheet)), program(sheet)
            with self.subTest(case=case, sheet=sheet.hex()):
                self.assertEqual(done.out.encode(), theirs)
                refused += done.status
        self.assertGreater(refused, 60)

    def test_samples_by_script(self):
        for name in ('table_i', 'case_e', 'full', 'refused', 'evening', 'fleet'):
            for page in (('clear',), ('why',), ('clear', '--quiet', '--rule', '2')):
                sheet = str(EXAMPLES / f'{name}.sheet')
                words = ['--why'] if page == ('why',) else list(page[1:])
                theirs = subprocess.run([ROOT / 'clear', *words, sheet], stdout=subprocess.PIPE)
                ours = bay(*page, sheet)
                with self.subTest(name=name, page=page):
                    self.assertEqual((ours.status, ours.out), (theirs.returncode, theirs.stdout))


class Clear(Case):
    def test_marked(self):
        lines = here('clear', '--marked', CASE_E).out.splitlines()
        self.assertEqual(lines[5:], ['floor 1 24', 'floor 2 0', 'places 1 1', 'places 2', 'margin 6'])
        self.ends(2, '', '--quiet or --marked, not both', here('clear', '--marked', '--quiet', CASE_E))

    def test_json(self):
        for words, more in (((), {}), (('--quiet',), {'quiet': True}), (('--rule', '2'), {'rule': 2}),
                            (('--marked',), {'marked': True})):
            with open(FULL, 'rb') as file:
                held = clear(Market.from_sheet(file.read()), **more)
            found = json.loads(self.ends(0, None, '', here('clear', '--json', *words, FULL)).out)
            self.assertEqual(found, held.as_dict())
        names = 'round rule cut margin stations charges sold paid places floors'
        self.assertEqual(list(found), names.split())

    def test_json_of_a_refusal(self):
        path = self.file('tick.csv', b'4,1\r\n1,2\r\n1,5,7,\r\n1,6,,9\r\n')
        done = self.ends(1, None, 'cell A4', here('clear', path, '--json'))
        self.assertEqual(json.loads(done.out), {
            'refused': 15, 'text': 'two guests have the same ticket',
            'where': {'line': 4, 'field': 1, 'guest': 2, 'detail': "ticket 1 is guest 1's too"}, 'file': path})

    def test_standard_input(self):
        with open(CASE_E, 'rb') as file:
            data = file.read()
        lines = here('clear', CASE_E).out
        self.ends(0, lines, '', bay('clear', data=data))
        self.ends(0, lines, '', bay('clear', '-', data=data))
        self.ends(0, lines, '', bay('clear', data=Market.from_sheet(data).to_csv()))


class Why(Case):
    def test_guest(self):
        done = self.ends(0, None, '', here('why', '--guest', '10', EVENING))
        self.assertEqual(done.out.splitlines()[:5], [
            'guest 10 wins station 1 charge 10050', '25 kWh, ticket 112, cut 310', '',
            'station  bid   total  what decided',
            '      1  485  12,125  seated: 1st of 8 for 3 bays; pays 10,050, the floor 10,050, set by guest 24'])

    def test_every_guest_of_random_markets(self):
        """What a line says begins with the engine's code."""
        rng = random.Random(23)
        for case in range(60):
            held, rule = draw.market(rng, rng.randint(1, 9)), rng.choice((1, 2))
            path, told = self.file('m', held.to_sheet()), explain(held, rule)
            guest = rng.randint(1, held.n)
            lines = here('why', '--guest', str(guest), '--rule', str(rule), path).out.splitlines()
            self.assertEqual(lines[0], told.lines()[guest - 1])
            codes = told.codes[(guest - 1) * held.m:guest * held.m]
            for station, (line, code) in enumerate(zip(lines[4:], codes), 1):
                here_ = told.stations[guest - 1] == station
                with self.subTest(case=case, line=line):
                    self.assertIn('seated: ' if here_ else f' {CODES[code]}', line)
            self.assertEqual(len(lines), 4 + held.m)

    def test_json(self):
        found = json.loads(here('why', '--json', TABLE).out)['guests']
        self.assertEqual([one['text'] for one in found], ['wins', 'bid below the cut', 'wins', 'outbid', 'outbid'])
        one = json.loads(here('why', '--json', '--guest', '3', TABLE).out)['guests']
        self.assertEqual(one, found[2:3])

    def test_no_such_guest(self):
        for guest in ('0', '6', '4294967295'):
            self.ends(1, 'refused 24\n', f'guest {guest}: the guest\'s number', here('why', '--guest', guest, TABLE))
        self.ends(2, '', 'is no guest: 0 to 4294967295', here('why', '--guest', '4294967296', TABLE))


class Show(Case):
    def test_table_i(self):
        self.ends(0, '''truthful round, rule 1: cut 3; 2 of 5 stations open, 2 of 5 guests seated
charged 33, paid 33, margin 0

station  ask  state     bays  candidates  floor  seated  sold kWh  paid
      1    4  not open     1           -      -       -         -     -
      2    1  open         2           3     16       1         6    18
      3    3  not open     4           -      -       -         -     -
      4    2  open         2           4     12       1         5    15
      5    5  not open     3           -      -       -         -     -

guest  ticket  kWh  station  bid  total  pays  keeps  why not
    1       1    5        4    5     25    15     10
    2       2    2        -    -      -     -      -  bid below the cut
    3       3    6        2    5     30    18     12
    4       4    4        -    -      -     -      -  outbid
    5       5    3        -    -      -     -      -  outbid
''', '', here('show', TABLE))

    def test_quiet_and_rule(self):
        done = self.ends(0, None, '', here('show', '--quiet', '--rule', '2', EVENING))
        self.assertTrue(done.out.startswith('quiet round, rule 2: cut '))
        self.assertNotIn('why not', done.out)

    def test_names(self):
        names = self.file('names.txt', 'B-XY 12\nM-Ü 3\n\n\x1b[31m\nlast\n'.encode())
        done = self.ends(0, None, '', here('show', '--names', names, TABLE))
        first = [line.split('  ')[0] for line in done.out.splitlines()[-5:]]
        self.assertEqual(first, ['B-XY 12', 'M-Ü 3', '', '?[31m', 'last'])
        self.ends(2, '', 'has 1 line, the market 5 guests', here('show', '--names', self.file('n', b'one\n'), TABLE))

    def test_no_guests(self):
        done = self.ends(0, None, '', here('show', self.file('m.csv', b'2,6\r\n1,1\r\n')))
        self.assertEqual(len(done.out.splitlines()), 6)

    def test_sums(self):
        """What is shown of each guest adds up to the facts on top."""
        done = here('show', FULL).out.replace(',', '').splitlines()
        pays = sum(int(row[6]) for row in map(str.split, done[46:]) if row[3] != '-')
        self.assertEqual(done[1], f'charged {pays} paid {clear(market_of(FULL)).cut * sold(done)} margin 1353413')


def market_of(path):
    with open(path, 'rb') as file:
        return Market.from_bytes(file.read())


def sold(lines):
    return sum(int(row[7]) for row in map(str.split, lines[4:44]) if row[2] == 'open')


class Convert(Case):
    def test_there_and_back(self):
        for name in (TABLE, CASE_E, FULL, EVENING, FLEET):
            with open(name, 'rb') as file:
                data = file.read()
            self.ends(0, '', '', here('convert', name, self.path('a.csv')))
            self.ends(0, '', '', here('convert', self.path('a.csv'), self.path('b.sheet')))
            self.ends(0, '', '', here('convert', self.path('b.sheet'), self.path('c.txt'), '--to', 'csv'))
            self.assertEqual(self.read('a.csv'), self.read('c.txt'))
            self.assertIn(data, (self.read('a.csv'), self.read('b.sheet')))

    def test_labels(self):
        self.ends(0, '', '', here('convert', '--labels', TABLE, self.path('a.csv')))
        self.assertEqual(self.read('a.csv').split(b'\r\n')[:4], [
            b',,station 1,station 2,station 3,station 4,station 5', b'ask,,4,1,3,2,5', b'bays,,1,2,4,2,3',
            b'ticket,kWh,bid,bid,bid,bid,bid'])
        self.ends(2, '', '--labels is for CSV', here('convert', '--labels', TABLE, self.path('a.sheet')))

    def test_standard_output(self):
        with open(TABLE, 'rb') as file:
            data = file.read()
        text = Market.from_sheet(data).to_csv()
        self.assertEqual(bay('convert', '-', '-', '--to', 'csv', data=data).out, text)
        self.assertEqual(bay('convert', '-', '-', data=text).out, data)

    def test_refused(self):
        self.ends(1, 'refused 6\n', 'station 2: an ask', here('convert', REFUSED, self.path('a.csv')))
        self.assertEqual(list(self.folder.iterdir()), [])


class Place(Case):
    GOOD = b'2,6\n1,1\n0,1\n0,1\n1,3,500,2,3,4\n2,3,500,2,0,0\n'

    def test_place(self):
        for data in (self.GOOD, self.GOOD.replace(b'\n', b'\r\n'), self.GOOD[:-1]):
            self.ends(0, '', '', here('place', self.file('p.csv', data), self.path('m.csv')))
            self.assertEqual(self.read('m.csv'), b'2,6\r\n1,1\r\n1,3,400,428\r\n2,3,500,472\r\n')
        self.ends(0, '', '', here('place', self.path('p.csv'), self.path('m.sheet')))
        self.assertEqual(market_of(self.path('m.sheet')), market_of(self.path('m.csv')))
        self.ends(0, '', '', here('place', self.file('p', b'2\n1\n0\n0\n'), self.path('none.csv')))

    def test_refused(self):
        for before, after, number, words in (
                (b'0,1\n0,1', b'0,32\n0,1', 16, 'line 3, field 2 (cell B3): station 2: a cell is off the grid'),
                (b'0,1\n0,1', b'0,1\n32,1', 16, 'line 4, field 1 (cell A4): station 1'),
                (b'3,4\n', b'3,40\n', 16, 'line 5, field 6 (cell F5): guest 1'),
                (b',0,0\n', b',99,0\n', 16, 'line 6, field 5 (cell E6): guest 2'),
                (b'1,3,500', b'1,3,1000001', 17, 'line 5, field 3 (cell C5): guest 1: a price or fall'),
                (b'500,2,0', b'500,1000001,0', 17, 'line 6, field 4 (cell D6): guest 2'),
                (b'2,6', b'2,1000001', 6, 'line 1, field 2 (cell B1): station 2'),
                (b'1,1', b'1,0', 7, 'line 2, field 2 (cell B2): station 2'),
                (b'2,3,500', b'2,0,500', 8, 'line 6, field 2 (cell B6): guest 2'),
                (b'2,3,500', b'1,3,500', 15, 'line 6, field 1 (cell A6): guest 2')):
            data = self.GOOD.replace(before, after, 1)
            with self.subTest(data):
                self.ends(1, f'refused {number}\n', words, here('place', self.file('p.csv', data), self.path('m.csv')))

    def test_no_places(self):
        for data, words in ((b'', "line 1, field 1: '' is not a whole number"), (b'2,6\n1,1\n', 'it ends after line 2'),
                            (self.GOOD + b'3,3\n', 'line 7: 2 fields, wanted 6'),
                            (b'2,6\n1\n', 'line 2: 1 fields, wanted 2'),
                            (b'2;6\n', 'line 1, field 1'), (b'2,6\n1,70000\n0,1\n0,1\n', 'bays: element 2 is 70000'),
                            (b'2,4294967296\n', 'line 1, field 2'), (b'2,\xc3\xb2\n', 'line 1, field 2')):
            with self.subTest(data):
                self.ends(2, '', words, here('place', self.file('p.csv', data), self.path('m.csv')))
        self.assertFalse((self.folder / 'm.csv').exists())


class Join(Case):
    def test_join(self):
        north, south = (str(EXAMPLES / f'gate_{gate}.sheet') for gate in ('north', 'south'))
        done = self.ends(0, '', 'guests 4 to 5 are guests 1 to 2 of', here('join', north, south, self.path('both.csv')))
        self.assertIn(f'guests 1 to 3 are guests 1 to 3 of {north}, ', done.err)
        self.assertEqual(market_of(self.path('both.csv')), join(market_of(north), market_of(south)))
        self.assertEqual(here('clear', self.path('both.csv')).out, here('clear', TABLE).out)
        empty = self.file('n', b'4,1,3,2,5\r\n1,2,4,2,3\r\n')
        self.ends(0, '', 'there are no guests of', here('join', north, empty, self.path('x')))

    def test_refused(self):
        one = self.file('one.csv', b'2,6\r\n1,1\r\n7,3,8,\r\n1,3,8,\r\n')
        for other, number, words in (
                (b'2,6\r\n1,1\r\n1,3,8,\r\n', 21, 'two.csv, line 3, field 1 (cell A3): guest 1, gate second: a ticket'),
                (b'2,7\r\n1,1\r\n2,3,8,\r\n', 20, 'one.csv and '), (b'2\r\n1\r\n', 20, 'two.csv: '),
                (b'2,6\r\n1,1\r\n2,0,8,\r\n', 8, 'two.csv, line 3, field 2 (cell B3): guest 1, gate second: an amount'),
                (b'2,6\r\n1,1\r\n' + b''.join(b'%d,1,,\r\n' % k for k in range(100, 299)), 2, 'one.csv and ')):
            with self.subTest(other[:40]):
                done = here('join', one, self.file('two.csv', other), self.path('both.csv'))
                self.ends(1, f'refused {number}\n', words, done)
        self.ends(2, '', 'one gate, not both', here('join', '-', '-', self.path('both.csv')))
        self.assertFalse((self.folder / 'both.csv').exists())


class Try(Case):
    def test_table_i(self):
        self.ends(0, 'as it stands: station 4 charge 15 gain 10\nwith this row: station 2 charge 16 gain 4\n'
                     'becomes seated: 4\nbecomes unseated: nobody else\n', '', here('try', '1', '0,9,0,0,0', TABLE))
        self.ends(0, 'as it stands: no seat gain 0\nwith this row: station 4 charge 24 gain -18\n'
                     'becomes seated: nobody else\n'
                     'becomes unseated: nobody else\n', '',
                  here('try', '2', ',,,900000,', TABLE, '--worths', '0,0,0,3,0'))

    def test_against_the_engine(self):
        rng = random.Random(24)
        for case in range(120):
            held, rule = draw.market(rng, rng.randint(1, 9)), rng.choice((1, 2))
            guest, row, worths = rng.randint(1, held.n), draw.row(rng, held.m), draw.row(rng, held.m)
            path = self.file('m', held.to_sheet())
            words = ['try', str(guest), ','.join(map(str, row)), path, '--rule', str(rule)]
            tried = what_if(held, guest, worths, row, rule)
            with self.subTest(case=case, words=words, worths=worths):
                found = json.loads(here(*words, '--worths', ','.join(map(str, worths)), '--json').out)
                both = found['first']['gain'], found['second']['gain']
                self.assertEqual(both, (tried.first_gain, tried.second_gain))
                self.assertEqual(found['second']['gain'], gains(held, guest, worths, row, rule)[0])
                self.assertEqual(found['changes'], tried.changes)
                truth = here(*words).out.splitlines()
                own = what_if(held, guest, held.row(guest), row, rule)
                self.assertTrue(truth[1].endswith(f' gain {own.second_gain}'))
                self.assertGreaterEqual(own.first_gain, own.second_gain)

    def test_refused(self):
        self.ends(1, 'refused 24\n', 'guest 9', here('try', '9', '0,0,0,0,0', TABLE))
        self.ends(1, 'refused 5\n', 'list row: ', here('try', '1', '0,0', TABLE))
        self.ends(1, 'refused 5\n', 'list worths: ', here('try', '1', '0,0,0,0,0', '--worths', '1', TABLE))
        self.ends(1, 'refused 9\n', 'list row: a bid or a worth', here('try', '1', '0,0,1000001,0,0', TABLE))
        self.ends(1, 'refused 6\n', 'station 2: an ask', here('try', '1', '0,0', REFUSED))
        for row, words in (('0,x', "ROW, number 2: 'x' is not"), ('4294967296', 'ROW, number 1'),
                           ('1.5', 'ROW, number 1')):
            self.ends(2, '', words, here('try', '1', row, TABLE))
        self.ends(2, '', '--worths, number 1', here('try', '1', '0', TABLE, '--worths', 'y'))


class Menu(Case):
    def test_table_i(self):
        self.ends(0, '''guest 1, 5 kWh: what a place costs it, whatever it bids

station  charge  per kWh  least bid  its bid  state
      1       -        -          -        -  not open
      2      16     3.20          4        4  place held
      3       -        -          -        -  not open
      4      15     3.00          3        5  place held
      5       -        -          -        2  not open
''', '', here('menu', '1', TABLE))

    def test_json(self):
        rng = random.Random(25)
        for case in range(40):
            held, rule = draw.market(rng, rng.randint(1, 9)), rng.choice((1, 2))
            guest = rng.randint(1, held.n)
            path = self.file('m', held.to_sheet())
            found = json.loads(here('menu', str(guest), '--json', path, '--rule', str(rule)).out)
            with self.subTest(case=case, path=held.to_sheet().hex()):
                self.assertEqual([bar and (bar, price) for bar, price in zip(found['bars'], found['prices'])],
                                 menu(held, guest, rule))
                self.ends(0, None, '', here('menu', str(guest), path))

    def test_out_of_reach(self):
        path = self.file('m.csv', b'1,2\r\n1,1\r\n1,1000,1000000,\r\n2,1,5,\r\n')
        self.assertIn('out of reach', self.ends(0, None, '', here('menu', '2', path)).out)
        self.ends(1, 'refused 24\n', 'guest 0', here('menu', '0', path))


class Wrong(Case):
    """Words that are not understood: one line and status 2."""

    def test_words(self):
        for words, said in (
                ((), 'no COMMAND'), (('clean',), 'no such command: clean'), (('-x',), 'no such option: -x'),
                (('--version', 'x'), 'nothing goes with --version'),
                (('clear', '--rule', '3', TABLE), "'3' is no rule: 1 to 2"),
                (('clear', '--rule'), 'expected one argument'), (('clear', '--quite', TABLE), '--quite'),
                (('clear', '--qui', TABLE), '--qui'), (('clear', TABLE, CASE_E), 'unrecognized arguments'),
                (('clear', '--rule', '1', '--rule', '2', TABLE), '--rule is given twice'), (('convert', TABLE), 'OUT'),
                (('try', 'x', '0', TABLE), "'x' is no guest"), (('try', '1'), 'ROW'), (('menu',), 'GUEST'),
                (('picture', TABLE), 'OUT.svg'),
                (('picture', TABLE, 'x.svg', '--width', '10'), 'is no width: 400 to 10000'),
                (('convert', TABLE, 'x', '--to', 'xlsx'), 'invalid choice'),
                (('help', 'clean'), 'no such command: clean'),
                (('clear', '--rule', '\u0661', TABLE), 'is no rule'), (('menu', '-1', TABLE), '-1')):
            with self.subTest(words):
                done = self.ends(2, '', said, here(*words))
                self.assertEqual(done.err.count('\n'), 1)

    def test_files(self):
        for words, said in ((('clear', 'nofile'), 'no such file: nofile'), (('clear', '.'), 'a folder, not a file: .'),
                            (('clear', ''), 'no such file: '), (('clear', TABLE + '/x'), 'no such file: '),
                            (('clear', 'a\0b'), 'no such file'), (('clear', '--', '-x'), 'no such file: ./-x'),
                            (('convert', TABLE, '/nofolder/x'), 'no such folder: /nofolder'),
                            (('convert', TABLE, '.'), 'a folder, not a file: .'),
                            (('convert', TABLE, ''), 'no such file: '),
                            (('show', '--names', 'nofile', TABLE), 'no such file: nofile')):
            with self.subTest(words):
                self.ends(2, '', said, here(*words))

    def test_options_anywhere(self):
        lines = here('menu', '1', TABLE, '--rule', '2').out
        for words in (('menu', '1', '--rule', '2', TABLE), ('menu', '--rule', '2', '1', TABLE),
                      ('menu', '--rule=2', '1', '--', TABLE)):
            self.ends(0, lines, '', here(*words))
        self.ends(0, here('clear', '--json', '--quiet', TABLE).out, '', here('clear', '--quiet', TABLE, '--json'))

    def test_every_command_has_a_test(self):
        # those of the other files
        named = {'picture', 'completion', 'help', 'tidy', 'search', 'mark', 'course run', 'course check',
                 'course round', 'post', 'book', 'book new', 'book copy'}
        tested = {name.lower() for name in globals()} | named
        self.assertEqual([name for name in COMMANDS if name not in tested], [])
        self.assertTrue(BAY.endswith('/bay'))


if __name__ == '__main__':
    unittest.main()
