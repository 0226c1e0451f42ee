"""What is lent: without a copy where it can be, and refused with the name and the element where it cannot."""
import array
import ctypes
import unittest

from bay_market import Clearing, Engine, Ledger, Market, clear, gains, mark, place, what_if
from bay_market.lending import address

try:
    import numpy
except ImportError:
    numpy = None

CASE_E = {'asks': [2, 6], 'bays': [1, 1], 'amounts': [3, 3], 'tickets': [1, 2], 'bids': [8, 0, 8, 0]}
FORMS = {'asks': 'I', 'bays': 'H', 'amounts': 'H', 'tickets': 'I', 'bids': 'I'}
WANTED = clear(Market(**CASE_E))


def arrays():
    return {name: array.array(FORMS[name], values) for name, values in CASE_E.items()}


class Lent(unittest.TestCase):
    def test_lists_are_copied(self):
        asks = [2, 6]
        market = Market(**{**CASE_E, 'asks': asks})
        asks[0] = 9
        self.assertEqual(clear(market), WANTED)

    def test_arrays_are_lent(self):
        held = arrays()
        market = Market(**held)
        for name, values in held.items():
            self.assertEqual(address(getattr(market, name)), values.buffer_info()[0])
        engine = Engine(market)
        engine.clear()
        self.assertEqual(engine.stations.tolist(), WANTED.stations)
        held['bids'][2] = 9
        engine.clear()
        self.assertEqual(engine.stations.tolist(), [0, 1])
        with self.assertRaises(BufferError):
            held['bids'].append(1)              # what is lent stays where it is

    def test_views(self):
        for name, form in FORMS.items():
            data = array.array(form, [7, *CASE_E[name], 7])
            for view in (memoryview(data)[1:-1], memoryview(data).toreadonly()[1:-1],
                         memoryview(data.tobytes())[data.itemsize:-data.itemsize].cast(form)):
                market = Market(**{**CASE_E, name: view})
                self.assertEqual(clear(market), WANTED)
                self.assertEqual(address(getattr(market, name)), address(view))
        shared = (ctypes.c_uint32 * 4)(8, 0, 8, 0)
        market = Market(**{**CASE_E, 'bids': shared})
        self.assertEqual(address(market.bids), ctypes.addressof(shared))
        self.assertEqual(clear(market), WANTED)

    def test_rows(self):
        for bids in ([[8, 0], [8, 0]], ((8, 0), (8, 0)), [array.array('I', [8, 0])] * 2,
                     memoryview(array.array('I', CASE_E['bids'])).cast('B').cast('I', (2, 2)), iter(CASE_E['bids'])):
            market = Market(**{**CASE_E, 'bids': bids})
            self.assertEqual((clear(market), market.width, market.rows()), (WANTED, 2, [[8, 0], [8, 0]]))

    def test_numpy(self):
        if numpy is None:
            self.skipTest('numpy is not installed')
        held = {name: numpy.array(values, dtype={'I': 'uint32', 'H': 'uint16'}[FORMS[name]])
                for name, values in CASE_E.items()}
        for bids in (held['bids'], held['bids'].reshape(2, 2)):
            bids.flags.writeable = False
            market = Market(**{**held, 'bids': bids})
            self.assertEqual(clear(market), WANTED)
            self.assertEqual(address(market.bids), bids.ctypes.data)
        wide = numpy.zeros((2, 4), dtype='uint32')
        for bids in (wide[:, :2], numpy.asfortranarray(wide[:, :2]), held['bids'].astype('int64'),
                     held['bids'].astype('>u4'), held['bids'].astype('float32'), held['bids'].astype('int32')):
            with self.assertRaisesRegex(ValueError, "^bids: items of form .*; wanted .* numpy's uint32$"):
                Market(**{**held, 'bids': bids})
        whole = [numpy.int64(8), numpy.uint8(0), 8, 0]
        self.assertEqual(clear(Market(**{**held, 'bids': whole})), WANTED)
        self.assertEqual(what_if(Market(**held), numpy.int64(2), held['asks'], held['asks']).changes, [0, 0])


class Refused(unittest.TestCase):
    def test_elements(self):
        for name, form in FORMS.items():
            top = 65535 if form == 'H' else 4294967295
            for wrong, shown in ((top + 1, str(top + 1)), (-1, '-1'), (1.0, '1.0'), ('7', "'7'"), (None, 'None'),
                                 (b'7', "b'7'"), (10 ** 99, '1' + '0' * 59)):
                for at in range(len(CASE_E[name])):
                    values = list(CASE_E[name])
                    values[at] = wrong
                    with self.assertRaises(ValueError) as caught:
                        Market(**{**CASE_E, name: values})
                    self.assertEqual(str(caught.exception),
                                     f'{name}: element {at + 1} is {shown}, not a whole number of 0 to {top}')

    def test_forms(self):
        held = arrays()
        for name, form in FORMS.items():
            values = CASE_E[name]
            for wrong in (array.array('i', values), array.array('h', values), array.array('L', values),
                          array.array('d', values), array.array('H' if form == 'I' else 'I', values), bytes(8),
                          bytearray(8), memoryview(array.array(form, values * 2))[::2]):
                with self.assertRaisesRegex(ValueError, f'^{name}: items of form .*; wanted whole numbers of '):
                    Market(**{**held, name: wrong})
            for wrong in (5, None, 'text', {1: 2}, {1, 2}, 2.5):
                with self.assertRaisesRegex(ValueError, f'^{name}: .* is no list of whole numbers$'):
                    Market(**{**held, name: wrong})

    def test_rows(self):
        for wrong, said in (([[8, 0], [8]], 'bids: row 2 has 1 numbers, row 1 has 2'),
                            ([[8, 0], [8, 0, 1]], 'bids: row 2 has 3 numbers, row 1 has 2'),
                            ([[8, 0], 8], 'bids: row 2 is 8, and no row')):
            with self.assertRaises(ValueError) as caught:
                Market(**{**CASE_E, 'bids': wrong})
            self.assertEqual(str(caught.exception), said)

    def test_other_lists(self):
        market = Market(**CASE_E)
        right = clear(market, marked=True)
        for call, said in (
                (lambda: what_if(market, 1, [-1, 0], [1, 1]), 'worths: element 1 is -1,'),
                (lambda: what_if(market, 1, [1, 0], [1, 2 ** 32]), 'row: element 2 is 4294967296,'),
                (lambda: gains(market, 1, [1, 0], [[1, 2], [3, None]]), 'rows: element 4 is None,'),
                (lambda: gains(market, 1, [1, 0], [[1, 2, 3]]), 'rows: rows of 3 bids, the market has 2 stations'),
                (lambda: mark(market, right._replace(charges=[2 ** 32, 0])), 'charges: element 1 is 4294967296,'),
                (lambda: mark(market, right._replace(places=[[256, 0], [0, 0]])), 'places: element 1 is 256,'),
                (lambda: mark(market, right._replace(cut=2 ** 32 + right.cut)), f'cut: it is {2 ** 32 + right.cut},'),
                (lambda: mark(market, right._replace(margin=2 ** 64)), 'margin: it is 18446744073709551616,'),
                (lambda: mark(market, clear(market)), 'places and floors are wanted'),
                (lambda: clear(market, quiet=True, marked=True), 'places and floors are of a truthful round'),
                (lambda: place([1], [1], [(0, 65536)], [(0, 0)]), 'guests: element 1 is 65536,'),
                (lambda: place([1], [1], [(0, 0)], [(0, 0, 0)]), r'stations: element 1 is \(0, 0, 0\), not a cell'),
                (lambda: Ledger.of([2 ** 64], [], 0, [0] * 8), 'guests: element 1 is 18446744073709551616,'),
                (lambda: Ledger.of([], [(0, 0), (0,)], 0, [0] * 8), 'stations: row 2 has 1 numbers, row 1 has 2'),
                (lambda: Ledger.of([], [], -1, [0] * 8), 'house: element 1 is -1,'),
                (lambda: market.with_row(1, [1]), 'row: 1 bids, guest 1 has 2')):
            with self.assertRaisesRegex(ValueError, f'^{said}'):
                call()
        with self.assertRaisesRegex(IndexError, '^guest 0: the market has 2 guests'):
            market.row(0)

    def test_nothing_is_written(self):
        """A call that is refused leaves the lists that the results stand in."""
        engine = Engine(Market(**{**CASE_E, 'amounts': [3, 0]}))
        engine.charges[0] = 77
        for rule in (1, 2, 3):
            with self.assertRaises(Exception):
                engine.clear(rule)
        self.assertEqual(engine.charges.tolist(), [77, 0])


class Named(unittest.TestCase):
    def test_clearing_is_plain(self):
        self.assertEqual(Clearing(*WANTED), WANTED)


if __name__ == '__main__':
    unittest.main()
