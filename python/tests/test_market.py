"""Markets in and out of files, and rounds as the program prints them."""
import copy
import pickle
import random
import subprocess
import unittest
from pathlib import Path
from unittest import mock

from bay_market import Ledger, Market, Refused, Where, clear, explain, is_sheet, join
from tests import draw

ROOT = Path(__file__).resolve().parents[2]


def printed(*arguments):
    return subprocess.run([ROOT / 'clear', *arguments], capture_output=True, check=False).stdout


class Files(unittest.TestCase):
    def test_there_and_back(self):
        rng = random.Random(1)
        for n, m in ((-1, -1),) * 300 + ((200, 40), (0, 1), (200, 1), (0, 40)):
            market = draw.market(rng, n, m)
            sheet, text = market.to_sheet(), market.to_csv()
            for same in (Market.from_sheet(sheet), Market.from_csv(text), Market.from_csv(draw.text_of(market, rng)),
                         Market.from_bytes(sheet), Market.from_bytes(text), Market.from_bytes(bytearray(text))):
                self.assertEqual(same, market)
            self.assertEqual((is_sheet(sheet), is_sheet(text)), (True, False))
            self.assertNotEqual(market, market.with_row(1, [row + 1 for row in market.row(1)]) if market.n else None)

    def test_either(self):
        for data, wanted in ((b'', True), (b'\x01\x01\x01\x00', True), (b'\x02\x00', True), (b'2', False),
                             (b'2,6\r\n\x00', False)):
            self.assertEqual(is_sheet(data), wanted)
            with self.assertRaises(Refused) as caught:
                Market.from_bytes(data)
            self.assertEqual(caught.exception.number in (1, 2), wanted)

    def test_another_width(self):
        flat = Market([1], [1], [1, 1], [1, 2], [1, 1])
        self.assertEqual(flat, Market([1], [1], [1, 1], [1, 2], [[1], [1]]))
        self.assertNotEqual(flat, Market([1], [1], [1, 1], [1, 2], [[1, 1]]))

    def test_longest(self):
        """The longest text that states a market is read, and values beyond the clearing's limits are kept."""
        most = 2 ** 32 - 1
        market = Market([most] * 40, [65535] * 40, [65535] * 200, range(most - 199, most + 1), [most] * 8000)
        self.assertEqual(Market.from_csv(market.to_csv()), market)
        self.assertEqual(len(Market.from_csv(market.to_csv()).to_csv()), len(market.to_csv()))

    def test_text_that_is_another_market(self):
        market = Market([2, 6], [1, 1], [3], [1], [8, 0])
        with mock.patch.object(Market, 'from_csv', return_value=market.with_row(1, [8, 1])):
            with self.assertRaisesRegex(ValueError, 'does not read back as this market'):
                market.to_csv()
        for lists, number in ((([2, 6], [1], [3], [1], [8, 0]), 5), (([2], [1], [3], [1, 2], [8]), 5),
                              (([2], [1], [3], [1], [8, 8]), 5), (([], [], [], [], []), 2),
                              (([1] * 41, [1] * 41, [], [], []), 2)):
            with self.assertRaises(Refused) as caught:
                Market(*lists).to_csv()
            self.assertEqual(caught.exception.number, number)

    def test_wrong_use(self):
        for wrong in ('2,6\r\n1,1\r\n', 5, None, [1, 2]):
            for read in (Market.from_bytes, Market.from_csv, Market.from_sheet):
                with self.assertRaisesRegex(TypeError, '^bytes are wanted'):
                    read(wrong)
        market = Market([2, 6], [1, 1], [3], [1], [8, 0])
        with self.assertRaisesRegex(AttributeError, '^asks: a market keeps its lists'):
            market.asks = [3, 4]
        with self.assertRaisesRegex(AttributeError, '^bids: a market keeps its lists'):
            del market.bids

    def test_refusals_are_plain_objects(self):
        with self.assertRaises(Refused) as caught:
            Market.from_csv(b'2;6\r\n')
        refused = caught.exception
        self.assertEqual(refused.as_dict(), {
            'refused': 22, 'text': refused.text,
            'where': {'line': 1, 'field': 1, 'byte': 1, 'detail': 'a semicolon: only digits, commas and CR LF'}})
        for again in (pickle.loads(pickle.dumps(refused)), copy.copy(refused)):
            self.assertEqual((again.number, again.where, str(again)), (22, refused.where, str(refused)))
        self.assertEqual((bool(Where()), bool(Where(byte=0)), bool(Where('x'))), (False, True, True))


class Rounds(unittest.TestCase):
    def test_samples(self):
        """The rounds of the samples, in the program's words."""
        for sheet in sorted((ROOT / 'examples').glob('*.sheet')):
            try:
                market = Market.from_sheet(sheet.read_bytes())
                lines = clear(market).lines()
            except Refused as refused:
                lines = [f'refused {refused.number}']
            self.assertEqual('\n'.join(lines) + '\n', sheet.with_suffix('.txt').read_text())

    def test_pages(self):
        market = Market.from_csv((ROOT / 'examples/fleet.csv').read_bytes())
        sheet = str(ROOT / 'examples/fleet.sheet')
        self.assertEqual(market.to_sheet(), Path(sheet).read_bytes())
        for rule in (1, 2):
            pages = {(): clear(market, rule).lines(), ('--quiet',): clear(market, rule, quiet=True).lines(),
                     ('--why',): explain(market, rule).lines()}
            for page, lines in pages.items():
                self.assertEqual('\n'.join(lines) + '\n', printed(*page, '--rule', str(rule), sheet).decode())

    def test_gates(self):
        north, south = (Market.from_sheet((ROOT / f'examples/gate_{name}.sheet').read_bytes())
                        for name in ('north', 'south'))
        both = join(north, south)
        self.assertEqual(both.rows(), north.rows() + south.rows())
        self.assertEqual(clear(both).cut, clear(north).cut)

    def test_book(self):
        """A year of eight desks: guests' accounts are the stations' and the house's."""
        rng, book, last = random.Random(2), Ledger(20, 6), [0] * 8
        for _ in range(400):
            desk = rng.randrange(8)
            last[desk] += 1
            book.post(draw.market(rng, rng.randint(0, 20), rng.randint(1, 6)), last[desk], desk, rng.choice((1, 2)))
        self.assertEqual(book.last, last)
        self.assertEqual(sum(book.guests), sum(paid for _, paid in book.stations) + book.house)
        self.assertEqual(Ledger.of(book.guests, book.stations, book.house, book.last), book)
        self.assertEqual(repr(book), '<Ledger of 20 guests and 6 stations>')


if __name__ == '__main__':
    unittest.main()
