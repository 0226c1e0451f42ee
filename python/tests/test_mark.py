"""bay mark: submissions in every form, right ones, and ones with a number spoilt at a time."""
import json
import os
import random
import re
import unittest

from bay_market import Market, clear, mark
from bay_market.clearing import HANDED_IN
from bay_market.marking import WIDTHS, marked, numbers
from bay_market.submission import Submission

from . import draw
from .bay import CASE_E, FULL, REFUSED, TABLE, Case, bay, here

NAMES = ('cut', 'margin', *HANDED_IN)
ORDER = ('cut', 'places', 'floors', 'stations', 'charges', 'sold', 'paid', 'margin')


def submission(market, rule=1):
    """What the engine hands in."""
    right = clear(market, rule, marked=True)
    flat = [held for row in right.places for held in row]
    return Submission(right.cut, right.margin, right.stations, right.charges, right.sold, right.paid, flat,
                      right.floors)


def as_lines(handed, n, m):
    """As bay clear --marked prints it, whatever the numbers."""
    out = [f'cut {handed.cut}']
    out += [f'guest {k + 1} station {handed.stations[k]} charge {handed.charges[k]}' for k in range(n)]
    out += [f'station {k + 1} sold {handed.sold[k]} paid {handed.paid[k]}' for k in range(m)]
    out += [f'floor {k + 1} {handed.floors[k]}' for k in range(m)]
    held = [[k + 1, *(j + 1 for j in range(m) if handed.places[k * m + j])] for k in range(n)]
    out += ['places ' + ' '.join(map(str, row)) for row in held]
    return '\n'.join([*out, f'margin {handed.margin}', ''])


class Forms(Case):
    def folder_of(self, handed, name, end, parted):
        folder = self.folder / name
        folder.mkdir(exist_ok=True)
        for key in NAMES:
            value = getattr(handed, key)
            text = parted.join(map(str, value)) if key in HANDED_IN else str(value)
            (folder / f'{key}{end}').write_text(text + '\n' if text else '')
        return str(folder)

    def test_right(self):
        """What the engine gives is right in every form, by either rule."""
        rng = random.Random(51)
        for case in range(60):
            market = draw.market(rng, m=rng.randint(1, 8))
            rule = rng.choice((1, 2))
            path, handed = self.file('m', market.to_sheet()), submission(market, rule)
            flat = {**handed._asdict()}
            rows = {**flat, 'places': [flat['places'][k * market.m:(k + 1) * market.m] for k in range(market.n)]}
            forms = [self.file('a', json.dumps(held, indent=rng.choice((None, 1))).encode()) for held in (flat, rows)]
            forms += [self.file('l', here('clear', '--marked', '--rule', str(rule), path).out.encode()),
                      self.file('s', as_lines(handed, market.n, market.m).replace('\n', '\r\n').encode()),
                      self.folder_of(handed, f'f{case}', '.csv', ','), self.folder_of(handed, f'g{case}', '', '\n'),
                      self.folder_of(handed, f'h{case}', '.txt', ' ')]
            for form in forms:
                with self.subTest(case=case, form=form, rule=rule, sheet=market.to_sheet().hex()):
                    self.ends(0, 'right\n', '', here('mark', form, path, '--rule', str(rule)))

    def test_pipe(self):
        for words in ((), ('--rule', '2')):
            made = bay('clear', '--marked', '--json', *words, FULL).out
            self.ends(0, 'right\n', '', bay('mark', '-', FULL, *words, data=made))
            self.ends(0, 'right\n', '', bay('mark', '-', FULL, *words, data=bay('clear', '--marked', *words, FULL).out))


class Spoilt(Case):
    def test_one_number_at_a_time(self):
        """Every number of small markets, made another or too wide: it is found, and told why the right one is right."""
        rng = random.Random(52)
        seen = {name: set() for name in ORDER}
        for case in range(40):
            market = draw.market(rng, rng.randint(1, 5), rng.randint(1, 5))
            rule = rng.choice((1, 2))
            handed = submission(market, rule)
            for name in NAMES:
                value = getattr(handed, name)
                for at in range(len(value)) if name in HANDED_IN else [None]:
                    right = value if at is None else value[at]
                    wide = 256 ** WIDTHS[name]
                    for other in (right + 1, wide, wide + right, -1, 0 if right else 2):
                        changed = other if at is None else [*value[:at], other, *value[at + 1:]]
                        found = marked(market, handed._replace(**{name: changed}), rule)
                        with self.subTest(name=name, at=at, other=other, rule=rule, sheet=market.to_sheet().hex()):
                            self.assertFalse(found.right)
                            first = found.first
                            self.assertEqual((first.name, first.handed_in, first.right), (name, other, right))
                            self.assertEqual(found.differ, {name: 1})
                            self.assertEqual(self.at(found.first, market.m), at)
                            self.reasoned(found, market, rule)
                        seen[name].add(re.sub(r'[\d,]+', '0', found.why))
        least = {'cut': 1, 'paid': 1, 'margin': 1, 'sold': 2, 'charges': 3, 'stations': 2, 'floors': 3, 'places': 4}
        for name, reasons in seen.items():
            self.assertGreaterEqual(len(reasons), least[name], (name, reasons))

    @staticmethod
    def at(first, m):
        """Where in its list the number stands."""
        if first.name == 'places':
            return (first.guest - 1) * m + first.station - 1
        return None if first.guest is None and first.station is None else (first.guest or first.station) - 1

    def reasoned(self, found, market, rule):
        """The reason has the right number, or says why it is 0."""
        first, cleared = found.first, clear(market, rule, marked=True)
        said = [int(word.replace(',', '')) for word in re.findall(r'\d[\d,]*', found.why)]
        if first.name == 'cut':
            position = int(re.search(r'takes the (\d+)', found.why).group(1))
            self.assertEqual(sorted(market.asks)[position - 1], first.right)
        if first.name == 'cut' or (first.name in ('charges', 'floors') and first.right):
            self.assertIn(first.right, said)
        elif first.name == 'paid':
            self.assertEqual(said[0] * said[1], first.right)
        elif first.name == 'margin':
            self.assertEqual(said[0] - said[1], first.right)
        elif first.name == 'sold':
            self.assertEqual(sum(said), first.right)
        elif first.name == 'stations' and first.right:
            self.assertIn(f'at station {first.right}', found.why)
        elif first.name == 'places':
            held = found.why.startswith(('seated', 'place held'))
            self.assertEqual(held, cleared.places[first.guest - 1][first.station - 1] == 1)

    def test_first_of_many(self):
        """Of several wrong numbers the first in the order of working is shown, and all are counted."""
        rng = random.Random(53)
        for case in range(200):
            market = draw.market(rng, rng.randint(1, 6), rng.randint(1, 5))
            handed, right = submission(market), clear(market, marked=True)
            changed = handed._asdict()
            for name in rng.sample(NAMES, rng.randint(1, 8)):
                if name in HANDED_IN:
                    changed[name] = [value + rng.choice((0, 0, 1)) for value in changed[name]]
                else:
                    changed[name] += 1
            found = marked(market, Submission(**changed))
            self.assertEqual(list(dict.fromkeys(one.name for one in numbers(market, handed, right))), list(ORDER))
            differing = [one for one in numbers(market, Submission(**changed), right) if one.handed_in != one.right]
            with self.subTest(case=case, sheet=market.to_sheet().hex(), changed=changed):
                self.assertEqual(found.right, not differing)
                if differing:
                    self.assertEqual(found.first, differing[0])
                    self.assertEqual(found.differ, {name: sum(one.name == name for one in differing) for name in ORDER
                                                    if any(one.name == name for one in differing)})
                places = [changed['places'][k * market.m:(k + 1) * market.m] for k in range(market.n)]
                handed_in = right._replace(**{**changed, 'places': places})
                self.assertEqual(found.right, mark(market, handed_in))


class Table(Case):
    """Table I: cut 3, stations 2 and 4 open; every message as it is printed."""

    def setUp(self):
        super().setUp()
        with open(TABLE, 'rb') as file:
            self.market = Market.from_sheet(file.read())
        self.handed = submission(self.market)

    def marked(self, *words, **changed):
        """What is printed of a submission with other lists."""
        path = self.file('a.json', json.dumps(self.handed._replace(**changed)._asdict()).encode())
        return here('mark', path, TABLE, *words)

    def changed(self, name, at, value):
        held = list(getattr(self.handed, name))
        held[at] = value
        return {name: held}

    def test_messages(self):
        for changed, said in (
                ({'cut': 4}, 'cut\n- 4\n+ 3\n  rule 1 takes the 3rd of the 5 asks in rising order: 1, 2, 3, 4, 5\n'),
                ({'margin': 7}, 'margin\n- 7\n+ 0\n  charges 33 less payments 33\n'),
                (self.changed('places', 1, 0), 'places, guest 1, station 2\n- 0\n+ 1\n  place held, sits at station 4: '
                                               '2nd of 3 for 2 bays; would pay 16, the floor 16, set by guest 4\n'),
                (self.changed('places', 16, 1), 'places, guest 4, station 2\n- 1\n+ 0\n  outbid: 3rd of 3 for 2 bays; '
                                                'the last place went to guest 1 with 20\n'),
                (self.changed('places', 0, 1), 'places, guest 1, station 1\n- 1\n+ 0\n  no bid\n'),
                (self.changed('floors', 1, 20), 'floors, station 2\n- 20\n+ 16\n  3 candidates for 2 bays: the first '
                                                'without a place is guest 4, with 16\n'),
                (self.changed('floors', 0, 1), 'floors, station 1\n- 1\n+ 0\n  the station is not open: its ask 4 is '
                                               'not below the cut 3\n'),
                (self.changed('stations', 0, 2), 'stations, guest 1\n- 2\n+ 4\n  total less charge is 4 at station 2, '
                                                 '10 at station 4\n'),
                (self.changed('stations', 4, 4), 'stations, guest 5\n- 4\n+ 0\n  it holds no place\n'),
                (self.changed('charges', 2, 17), 'charges, guest 3\n- 17\n+ 18\n  seated: 1st of 3 for 2 bays; pays '
                                                 '18, cut 3 x 6 kWh\n'),
                (self.changed('charges', 1, -5), 'charges, guest 2\n- -5\n+ 0\n  it has no seat\n'),
                (self.changed('sold', 1, 7), 'sold, station 2\n- 7\n+ 6\n  the kWh of those seated there: 6\n'),
                (self.changed('sold', 0, 7), 'sold, station 1\n- 7\n+ 0\n  nobody is seated there\n'),
                (self.changed('paid', 3, 16), 'paid, station 4\n- 16\n+ 15\n  cut 3 x 5 kWh sold\n')):
            with self.subTest(said):
                name = said.split('\n')[0].split(',')[0]
                self.ends(1, f'wrong\nfirst: {said}differ: {name} 1\n', '', self.marked(**changed))
                self.ends(1, 'wrong\n', '', self.marked('--brief', **changed))
        self.ends(0, 'right\n', '', self.marked('--brief'))

    def test_many_asks(self):
        with open(FULL, 'rb') as file:
            handed = submission(Market.from_sheet(file.read()))
        path = self.file('a.json', json.dumps(handed._replace(cut=1)._asdict()).encode())
        why = 'rule 1 takes the 21st of the 40 asks in rising order'
        self.ends(1, f'wrong\nfirst: cut\n- 1\n+ 266\n  {why}\ndiffer: cut 1\n', '', here('mark', path, FULL))

    def test_another_length(self):
        for name in HANDED_IN:
            for change in (lambda held: held[:-1], lambda held: [*held, 0], lambda held: []):
                done = self.marked(**{name: change(getattr(self.handed, name))})
                self.ends(1, 'refused 10\n', f'list {name}: a list that is lent or handed in has another length', done)

    def test_unreadable(self):
        good = self.handed._asdict()
        rows = [good['places'][k * 5:k * 5 + 5] for k in range(5)]
        for data, said in (
                (b'', ': the line of cut is missing'), (b'cut 3\n', ': the line of guest 1 is missing'),
                (b'{', ', line 1, column 2: not JSON: '), (b'[1]', ': a list, where an object is wanted'),
                (b'{"cut": 3}', ': "margin" is missing'), (b'{"cut": 3, "cut": 3}', ': "cut" is there twice'),
                (b'\xff', ', byte 0: not UTF-8'), (b'{"a": ' + b'[' * 100000, ': nested too deep'),
                (b'hello\n', ', line 1: "hello" is no line of bay clear --marked'),
                (b'cut x\n', ', line 1: "cut x" is no line'),
                (b'cut 3\ncut 3\n', ', line 2: cut is there twice, first in line 1'),
                (b'guest 6 station 0 charge 0\n', ': this market has no guest 6'),
                (b'guest 0 station 0 charge 0\n', ': this market has no guest 0'),
                (b'floor 6 0\n', ': this market has no station 6'),
                (b'places 1 6\n', ': this market has no station 6'), (b'places 1 2 2\n', ': station 2 is there twice'),
                (b'places\n', ': "places": wanted are places, a guest and its stations'),
                (b'cut ' + b'9' * 41, ' is no line of bay clear --marked'),
                (json.dumps({**good, 'cut': '3'}).encode(), ': "cut": "3" is not a whole number'),
                (json.dumps({**good, 'cut': True}).encode(), ': "cut": true is not a whole number'),
                (json.dumps({**good, 'cut': None}).encode(), ': "cut": null is not a whole number'),
                (json.dumps({**good, 'paid': 3}).encode(), ': "paid" is not a list'),
                (json.dumps({**good, 'paid': [0, 1.5]}).encode(), ': "paid", element 2: 1.5 is not a whole number'),
                (json.dumps({**good, 'margin': float('nan')}).encode(), ': NaN is not a whole number'),
                (json.dumps(good).replace('"margin": 0', f'"margin": {"9" * 5000}').encode(),
                 ': a number of 5000 digits'),
                (json.dumps({**good, 'places': [*rows[:4], [1]]}).encode(),
                 ': "places": row 5 has 1 numbers, row 1 has 5'),
                (json.dumps({**good, 'places': [row[:4] for row in rows]}).encode(),
                 ': "places": rows of 4 numbers, the market has 5'),
                (json.dumps({**good, 'places': [*rows[:4], 3]}).encode(), ': "places": row 5 is 3, and no row')):
            with self.subTest(said):
                path = self.file('a.json', data)
                self.ends(1, 'wrong\n', f'{path}{said}' if said[0] in ',' else said, here('mark', path, TABLE))

    def test_folders(self):
        folder = self.folder / 'firm'
        folder.mkdir()
        self.ends(1, 'wrong\n', 'firm: no file cut, cut.txt or cut.csv', here('mark', str(folder), TABLE))
        for name in NAMES:
            value = getattr(self.handed, name)
            (folder / f'{name}.txt').write_text(' '.join(map(str, value)) if name in HANDED_IN else str(value))
        self.ends(0, 'right\n', '', here('mark', str(folder), TABLE))
        for name, text, said in (('cut', '3 3', 'cut.txt: 2 numbers, wanted one'),
                                 ('cut', '', 'cut.txt: 0 numbers, wanted one'),
                                 ('sold', '0,6\n0,,5', 'sold.txt, line 2, field 2: "" is not a whole number'),
                                 ('sold', '0 6\n0 x 5', 'sold.txt, line 2, field 2: "x" is not a whole number'),
                                 ('paid', '1.5', 'paid.txt, line 1, field 1: "1.5" is not a whole number')):
            kept = (folder / f'{name}.txt').read_text()
            (folder / f'{name}.txt').write_text(text)
            self.ends(1, 'wrong\n', said, here('mark', str(folder), TABLE))
            (folder / f'{name}.txt').write_text(kept)
        (folder / 'cut').write_text('3')
        self.ends(1, 'wrong\n', 'are both there', here('mark', str(folder), TABLE))

    def test_several(self):
        """A table; whatever is wrong with one, the next is marked too."""
        right = self.file('right.json', json.dumps(self.handed._asdict()).encode())
        wrong = self.file('wrong.txt', as_lines(self.handed._replace(charges=[15, 0, 17, 0, 0]), 5, 5).encode())
        short = self.file('short.json', json.dumps(self.handed._replace(paid=[0])._asdict()).encode())
        broken = self.file('broken.json', b'{')
        done = here('mark', right, wrong, short, broken, self.path('nothing'), TABLE)
        rows = [re.split('  +', line) for line in done.out.splitlines()]
        self.assertEqual(rows[0], ['submission', 'mark', 'first', 'handed in', 'right', 'why'])
        seated = 'seated: 1st of 3 for 2 bays; pays 18, cut 3 x 6 kWh'
        self.assertEqual(rows[1:4], [[right, 'right'], [wrong, 'wrong', 'charges, guest 3', '17', '18', seated],
                                     [short, 'refused 10', 'list paid: 1 long, wanted 5']])
        self.assertEqual(rows[4][:2], [broken, 'wrong'])
        self.assertIn(f'{broken}, line 1, column 2: not JSON: ', rows[4][2])
        nothing = self.path('nothing')
        self.assertEqual(rows[5:], [[nothing, 'not read', f'no such file: {nothing}']])
        self.assertEqual((done.status, done.err), (2, ''))
        done = here('mark', '--brief', right, wrong, TABLE)
        self.assertEqual([re.split('  +', line) for line in done.out.splitlines()],
                         [['submission', 'mark'], [right, 'right'], [wrong, 'wrong']])
        self.assertEqual(done.status, 1)
        self.assertEqual(here('mark', right, right, TABLE).status, 0)

    def test_ends(self):
        self.ends(2, '', 'no such file: ', here('mark', self.path('nothing'), TABLE))
        right = self.file('right.json', json.dumps(self.handed._asdict()).encode())
        self.ends(2, '', 'no such file: ', here('mark', right, self.path('nothing')))
        self.ends(2, '', '- is given twice', here('mark', '-', '-'))
        self.ends(1, 'refused 6\n', 'an ask is above', here('mark', right, REFUSED))
        self.ends(1, 'refused 10\n', 'list stations', here('mark', right, CASE_E))

    def test_random_bytes(self):
        """Whatever is handed in, the answer is a mark."""
        rng, ends = random.Random(54), set()
        texts = [json.dumps(self.handed._asdict()).encode(), as_lines(self.handed, 5, 5).encode()]
        for _ in range(1500):
            data = draw.changed(rng.choice(texts), rng, b'0123456789 ,:"[]{}-.exy\n\xff')
            done = here('mark', self.file('a', data), TABLE)
            self.assertIn(done.out.split('\n')[0], ('right', 'wrong', 'refused 10'), data)
            self.assertNotIn('a fault of bay itself', done.err)
            ends.add(done.out.split('\n')[0])
        self.assertLessEqual({'right', 'wrong'}, ends)
        self.assertEqual(os.listdir(self.folder), ['a'])


if __name__ == '__main__':
    unittest.main()
