"""What spreadsheets export is made right and said; what would be a guess is refused with its cell."""
import random
import unittest

from bay_market import Market
from bay_market.commands.forms import labelled
from bay_market.tidy import Untidy, column, kind, tidy

from . import draw
from .bay import Case, bay, here

STRICT = b'4,1\r\n1,2\r\n1,5,7,\r\n2,6,,9\r\n'
FORMS = {
    'strict': STRICT,
    'semicolons': b'4;1\r\n1;2\r\n1;5;7;\r\n2;6;;9\r\n',
    'tabs': b'4\t1\r\n1\t2\r\n1\t5\t7\t\r\n2\t6\t\t9\r\n',
    'a byte order mark': b'\xef\xbb\xbf' + STRICT,
    'LF': STRICT.replace(b'\r', b''),
    'CR': STRICT.replace(b'\n', b''),
    'no last line end': STRICT[:-2],
    'quotes': b'"4","1"\r\n"1","2"\r\n"1","5","7",""\r\n"2","6","","9"\r\n',
    'UTF-16, low byte first': '\ufeff4\t1\n1\t2\n1\t5\t7\t\n2\t6\t\t9\n'.encode('utf-16-le'),
    'UTF-16, high byte first': '\ufeff4,1\r\n1,2\r\n1,5,7,\r\n2,6,,9\r\n'.encode('utf-16-be'),
    'labels': b',,S1,S2\nask,,4,1\nbays,,1,2\nticket,kWh,bid,bid\n1,5,7,\n2,6,,9\n',
    'a title': b'The evening,,,\nask,,4,1\nbays,,1,2\n1,5,7,\n2,6,,9\n',
    'station numbers above the asks': b'station,,1,2\nask,,4,1\nbays,,1,2\n1,5,7,\n2,6,,9\n',
    'station numbers in the heading': b'ask;;4;1\nbays;;1;2\nKarte;Menge;1;2\n1;5;7;\n2;6;;9\n',
    'names': b'ask,,,4,1\nbays,,,1,2\nname,ticket,kWh,1,2\nB-XY,1,5,7,\nM-A 3,2,6,,9\n',
    'names, asks at the left': b'ask,4,1,,\nbays,1,2,,\nB-XY,1,5,7,\nM-A 3,2,6,,9\n',
    'names, no labels': b'4,1\n1,2\nB-XY,1,5,7,\nM-A 3,2,6,,9\n',
    'names that begin with a digit': b'ask,,,4,1\nbays,,,1,2\nplate,ticket,kWh,S1,S2\n51-AB,1,5,7,\n52-CD,2,6,,9\n',
    'a heading above the asks': b'plate,ticket,kWh,S1,S2\nask,,,4,1\nbays,,,1,2\n51-AB,1,5,7,\n52-CD,2,6,,9\n',
    'guests with running numbers': b'ask,,,4,1\nbays,,,1,2\nno,ticket,kWh,S1,S2\n1,1,5,7,\n2,2,6,,9\n',
    'labels of asks and bays alone': b'ask,4,1\nbays,1,2\n1,5,7,\n2,6,,9\n',
    'padded lines': b'4,1,,\r\n1,2,,\r\n1,5,7,\r\n2,6,,9\r\n,,,\r\n',
    "'.0'": b'4.0,1\n1,2\n1,5,7.0,\n2,6,,9.00\n',
    'blanks': b' 4 , 1\n1,2\n\n1, 5,7,\n2,6,,9',
    'a blank first column': b',ask,,4,1\n,bays,,1,2\n,1,5,7,\n,2,6,,9\n',
    'blank columns inside': b'ask,,,4,,1\nbays,,,1,,2\n1,,5,7,,\n2,,6,,,9\n',
    'the separator named': b'sep=;\n4;1\n1;2\n1;5;7;\n2;6;;9\n',
    'a semicolon in a quoted title': b'"evening; late",,,\nask,,4,1\nbays,,1,2\n1,5,7,\n2,6,,9\n',
    'a line end in a label': b'"ask\nmills",,4,1\nbays,,1,2\n1,5,7,\n2,6,,9\n',
    'a remark below': b'4,1\n1,2\n1,5,7,\n2,6,,9\nend of list,,,\n',
}
GUESSES = {                     # and the number and a part of what is said
    'thousands': (b'4,1\n1,2\n1,5,"1,200",\n', 22, "cell C3 is '1,200': write it without separators (as 1200"),
    'thousands in German': (b'4;1\n1;2\n1;5;1.000;\n', 22, "cell C3 is '1.000': write it without separators"),
    'decimals': (b'4,1\n1,2\n1,5,0.31,\n', 22, "cell C3 is '0.31': prices are whole mills"),
    'decimals in German': (b'4;1\n1;2\n1;5;0,31;\n', 22, "cell C3 is '0,31': prices are whole mills"),
    'a minus': (b'4,1\n1,2\n1,5,-3,\n', 22, "cell C3 is '-3': no number may be below 0"),
    'a failed formula': (b'4,1\n1,2\n1,5,#REF!,\n', 22, "cell C3 is '#REF!': a formula"),
    'a failed formula as first ask': (b'ask,,#REF!,1\nbays,,1,2\n1,5,7,3\n', 22, "cell C1 is '#REF!'"),
    'a guest of failed formulas': (b'4,1\n1,2\n1,5,7,\n#REF!,#REF!,#REF!,\n', 22, "cell A4 is '#REF!'"),
    'a word': (b'4,1\n1,2\n1,5,x,\n', 22, "cell C3 is 'x': not a whole number"),
    'a money sign': (b'4,1\n1,2\n1,5,\xe2\x82\xac7,\n', 22, 'cell C3'),
    'a missing cell': (b'4,1\n1,2\n1,5,3\n', 22, 'cell D3 is missing'),
    'a missing first ask': (b'ask,,,1\nbays,,1,2\n1,5,7,3\n', 22, 'cell C2 has no counterpart'),
    'missing last bays': (b'ask,,4,1\nbays,,1,\n1,5,7,\n', 22, 'cell D1 has no counterpart'),
    'a missing first station': (b'ask,,,1\nbays,,,2\n1,5,7,3\n', 22, 'the asks begin in column D and the tickets in'),
    'a bid where no station is': (b'4,1\n1,2\n1,5,7,,3\n', 22, "cell E3 is '3': no station is there"),
    'a remark beside': (b'ask,,4,1\nbays,,1,2\n1,5,7,3,late\n', 22, "cell E3 is 'late'"),
    'no ticket': (b'4,1\n1,2\n,5,7,\n', 22, 'cell A3: the ticket is empty'),
    'a name alone': (b'ask,,,4,1\nbays,,,1,2\nB-XY,1,5,7,\nM-A 3,,,,\n', 22, 'cell B4: the ticket is empty'),
    'a guest of words': (b'ask,,,4,1\nbays,,,1,2\nname,ticket,kWh,1,2\nB-XY,n/a,n/a,7,\n', 22, "cell B4 is 'n/a'"),
    'a guest of words alone': (b'ask,,,4,1\nbays,,,1,2\nname,ticket,kWh,1,2\nB-XY,n/a,n/a,,\n', 22, "cell B4 is 'n/a'"),
    'a first guest of words': (b'ask,,,4,1\nbays,,,1,2\nB-XY,n/a,n/a,7,\nM-A 3,2,6,,9\n', 22, "cell B3 is 'n/a'"),
    'words for tickets': (b'4,1,,\n1,2,,\nT1,5,7,3\n', 22, 'cell E3 is missing'),
    'a plate where the ticket belongs': (b'4,1\n1,2\n51-AB,5,7,\n', 22, 'put a heading above the guests'),
    'the bays above the asks': (b'bays,,1,2\nask,,4,1\n1,5,7,3\n', 22, 'line 1 has the bays, above the asks'),
    'the bays below the guests': (b'ask,,4,1\n1,5,7,3\nbays,,1,2\n', 22, 'line 3 has the bays, not below the asks'),
    'guests above the asks': (b'1,5,7,3\nask,,4,1\nbays,,1,2\n', 22, 'line 1 stands above the asks'),
    'a remark between guests': (b'4,1\n1,2\n1,5,7,\nlate,,,\n2,6,,9\n', 22, "cell A4 is 'late'"),
    'no bays': (b'4,1\n', 22, 'no line of bays'),
    'no number': (b'hello\n', 22, 'no line has a number'),
    'nothing': (b'', 22, 'the file is empty'),
    'a NUL': (b'4,1\n1,2\x00\n', 22, ''),
    'an open quote': (b'4,1\n1,2\n1,5,"7,\n2,6,,9\n', 22, 'cell C3'),
    'a workbook': (b'PK\x03\x04', 22, 'save it as CSV'),
    'an amount of 0': (b'ask,,4,1\nbays,,1,2\nticket,kWh,,\n1,0,7,\n', 8, 'cell B4: an amount is 0 or above 1,000'),
    'an ask too high': (b'ask,,4,1000001\nbays,,1,2\n', 6, 'cell D1: an ask is above 1,000,000'),
    'no bay': (b'ask,,4,1\nbays,,1,0\n', 7, 'cell D2: a station has no bays'),
    'a bid too high': (b'\nask,,4,1\nbays,,1,2\n1,5,,1000001\n', 9, 'cell D4: a bid'),
    'a ticket twice': (b'4,1\n1,2\n1,5,7,\n1,6,,9\n', 15, 'cell A4: two guests have the same ticket'),
    'too wide for its table': (b'4,1\n1,70000\n1,5,7,\n', 23, 'cell B2: a field has more than ten digits'),
    'eleven digits': (b'4,1\n1,2\n00000000001,5,7,\n', 23, 'cell A3'),
}


def spoilt(rng, data):
    """A text with a few of its bytes put, taken or changed."""
    held = bytearray(data)
    for _ in range(rng.randint(1, 4)):
        at = rng.randrange(len(held) + 1)
        new = rng.choice((b'', b',', b';', b'\n', b'\r\n', b'"', b'7', b' ', b'x', b'.0', b'\x00', b'-'))
        held[at:at + rng.choice((0, 1))] = new
    return bytes(held)


class Tidy(Case):
    def test_forms(self):
        for name, data in FORMS.items():
            with self.subTest(name):
                done = tidy(data)
                self.assertEqual(done.text, STRICT)
                self.assertEqual(bool(done.notes), data != STRICT)
                self.assertEqual(done.names, ['B-XY', 'M-A 3'] if 'B-XY' in str(data) else done.names)

    def test_guesses(self):
        for name, (data, number, words) in GUESSES.items():
            with self.subTest(name):
                with self.assertRaises(Untidy) as caught:
                    tidy(data)
                self.assertEqual(caught.exception.number, number, caught.exception)
                self.assertIn(words, str(caught.exception))

    def test_last_column_that_was_not_exported(self):
        self.assertEqual(tidy(b'4,1,\n1,2,\n1,5,7\n').text, b'4,1\r\n1,2\r\n1,5,7,\r\n')

    def test_labels_come_back(self):
        rng = random.Random(11)
        for case in range(300):
            market = draw.market(rng)
            with self.subTest(case):
                self.assertEqual(tidy(labelled(market)).text, market.to_csv())

    def test_spoilt(self):
        """Whatever is done to a good text: a market that the engine reads and what was changed, or Untidy."""
        rng = random.Random(12)
        tidied = 0
        for case in range(6000):
            data = spoilt(rng, rng.choice(list(FORMS.values())))
            try:
                done = tidy(data)
            except Untidy:
                continue
            with self.subTest(case=case, data=data):
                Market.from_csv(done.text).to_sheet()
                self.assertTrue(done.notes or done.text == data)
                tidied += 1
        self.assertGreater(tidied, 600)

    def test_column(self):
        self.assertEqual([column(k) for k in (0, 25, 26, 701, 702)], ['A', 'Z', 'AA', 'ZZ', 'AAA'])

    def test_kind(self):
        self.assertEqual(kind(b'4,1\r\n'), '')
        self.assertIn('.xls)', kind(b'\xd0\xcf\x11\xe0'))

    def test_command(self):
        export = self.file('export.csv', FORMS['names'])
        done = self.ends(0, '', 'column B', here('tidy', export, self.path('m.csv'), '--names', self.path('names.txt')))
        self.assertEqual((self.read('m.csv'), self.read('names.txt')), (STRICT, b'B-XY\nM-A 3\n'))
        self.assertTrue(all(line.startswith(f'bay: {export}: ') for line in done.err.splitlines()))
        self.ends(0, None, 'nothing to change', here('tidy', self.path('m.csv'), self.path('again.csv')))
        self.ends(0, '', '', here('convert', self.path('m.csv'), self.path('one.sheet')))
        here('tidy', export, self.path('two.sheet'))
        self.assertEqual(self.read('one.sheet'), self.read('two.sheet'))
        done = here('tidy', self.path('m.csv'), self.path('x'), '--names', self.path('y'))
        self.ends(2, '', 'no names in front', done)
        self.ends(2, '', 'is no text', here('tidy', self.path('one.sheet')))

    def test_command_refuses(self):
        for number, cell, guess in ((22, 'cell C3', 'decimals'), (8, 'cell B4', 'an amount of 0')):
            done = here('tidy', self.file('a.csv', GUESSES[guess][0]), self.path('x.csv'))
            self.ends(1, f'refused {number}\n', cell, done)
        self.assertFalse((self.folder / 'x.csv').exists())
        self.ends(2, '', 'longer than any market', here('tidy', self.file('long.csv', b'1,' * (1 << 19))))

    def test_pipe(self):
        """A pipe gets a market or nothing."""
        self.ends(0, STRICT.decode(), 'semicolons', bay('tidy', '-', data=FORMS['semicolons']))
        self.ends(1, '', 'cell C3', bay('tidy', '-', data=GUESSES['decimals'][0]))


if __name__ == '__main__':
    unittest.main()
