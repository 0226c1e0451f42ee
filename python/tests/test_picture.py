"""What decided in words, and the picture: every charge that is shown is the engine's, and all lies on the paper."""
import os
import random
import re
import unittest
from unittest import mock
from xml.etree import ElementTree

from bay_market import Market, clear, menu
from bay_market import words
from bay_market.bands import FULL, LEAN, MARKS, PICK, layout
from bay_market.picture import draw as draw_picture
from bay_market.words import Disagreement, look, reason

from . import draw
from .bay import CASE_E, EVENING, FULL as LARGEST, REFUSED, TABLE, Case, bay, here

SVG = '{http://www.w3.org/2000/svg}'


def market_of(path):
    with open(path, 'rb') as file:
        return Market.from_bytes(file.read())


def random_rounds(seed, count):
    """Markets with a rule, a kind of round and a guest, or none."""
    rng = random.Random(seed)
    for case in range(count):
        held = draw.market(rng) if rng.random() < 0.8 else draw.market(rng, rng.randint(100, 200), rng.randint(20, 40))
        guest = rng.choice((None, rng.randint(1, held.n))) if held.n else None
        yield case, held, rng.choice((1, 2)), rng.random() < 0.5, guest


class Words(unittest.TestCase):
    def test_charges_are_the_engines(self):
        """Of the seated the charge; of whoever holds a place elsewhere what the price list says."""
        held_elsewhere = 0
        for case, held, rule, quiet, _ in random_rounds(31, 150):
            cleared, seen = clear(held, rule, quiet), look(held, rule, quiet)
            lists = {}
            for station in seen.stations:
                for one in station.queue:
                    with self.subTest(case=case, guest=one.guest, station=station.station):
                        if one.here:
                            self.assertEqual(one.charge, cleared.charges[one.guest - 1])
                        elif one.held:
                            item = lists.setdefault(one.guest, menu(held, one.guest, rule))[station.station - 1]
                            self.assertEqual(one.charge, item[1])
                            self.assertGreaterEqual(one.total, item[0])
                            held_elsewhere += 1
        self.assertGreater(held_elsewhere, 500)

    def test_disagreement(self):
        """Another charge, floor or seat than the engine's is never shown."""
        right = clear(market_of(EVENING), marked=True)
        charges, stations = list(right.charges), list(right.stations)
        charges[9] += 1
        stations[9] = 5
        for spoilt in (right._replace(charges=charges), right._replace(stations=stations),
                       right._replace(floors=[floor + 1 for floor in right.floors])):
            with mock.patch.object(words, 'clear', lambda *_, **__: spoilt), self.assertRaises(Disagreement):
                look(market_of(EVENING))

    def test_reasons(self):
        held = Market([1, 2, 9], [1, 1, 1], [2, 2, 2, 2], [1, 2, 3, 4], [9, 9, 9, 9, 0, 9, 8, 9, 0, 5, 1, 0])
        seen, quiet = look(held, 2), look(held, 2, quiet=True)
        for guest, station, said in (
                (1, 1, 'seated: 1st of 2 for 1 bay; pays 18, cut 9 x 2 kWh'),
                (1, 2, 'place held, sits at station 1: 1st of 2 for 1 bay; would pay 18, cut 9 x 2 kWh'),
                (1, 3, 'station not open: its ask 9 is not below the cut 9'),
                (2, 1, 'outbid: 2nd of 2 for 1 bay; '
                       'the last place went to guest 1 with 18, equal, with the lower ticket 1'),
                (2, 2, 'no bid'), (3, 1, 'bid below the cut: 8 is below 9')):
            self.assertEqual(reason(seen, guest, station), said)
        for guest, station, said in ((1, 1, 'seated: 1st of 2 for 1 bay; pays 18, cut 9 x 2 kWh'),
                                     (1, 2, 'passed over: seated at station 1 already'),
                                     (2, 1, 'turned away: 2nd of 2 for 1 bay'),
                                     (3, 2, 'seated: 2nd of 2 for 1 bay; pays 18, cut 9 x 2 kWh')):
            self.assertEqual(reason(quiet, guest, station), said)
        floor = look(market_of(EVENING))
        self.assertEqual(reason(floor, 6, 3),
                         'seated: 3rd of 10 for 3 bays; pays 10,875, the floor 10,875, set by guest 2')


class Picture(Case):
    def test_charges_are_the_engines(self):
        """The titles of the bars name who is seated where, and for what."""
        for case, held, rule, quiet, guest in random_rounds(32, 120):
            cleared = clear(held, rule, quiet)
            for width in (400, 700, 1120):
                text = draw_picture(held, rule, quiet, guest, width)
                with self.subTest(case=case, width=width, rule=rule, quiet=quiet):
                    shown = re.findall(r'<title>guest (\d+): [^<]* = [\d,]+, seated here, pays ([\d,]+)</title>', text)
                    seated = {(str(k), f'{charge:,}') for k, (station, charge) in enumerate(cleared.seats, 1)
                              if station}
                    self.assertEqual(set(shown), seated)
                    self.on_paper(ElementTree.fromstring(text), width)

    def on_paper(self, root, width):
        """Nothing lies beside the paper; each bar has a title, the picture a title and a description."""
        height = float(root.get('height'))
        self.assertEqual((root.get('width'), root[0].tag, root[1].tag), (str(width), SVG + 'title', SVG + 'desc'))
        self.assertNotIn(SVG + 'script', {part.tag for part in root.iter()})
        for part in root:
            if part.tag == SVG + 'rect' and part.get('width') != '100%':
                left, top, wide, tall = (float(part.get(name)) for name in ('x', 'y', 'width', 'height'))
                self.assertTrue(0 <= left and left + wide <= width + 0.1, part.attrib)
                self.assertTrue(0 <= top and top + tall <= height, part.attrib)
            if part.tag == SVG + 'text':
                self.assertTrue(0 <= float(part.get('x')) <= width and 0 < float(part.get('y')) < height, part.attrib)
            if part.tag == SVG + 'line':
                self.assertTrue(all(0 <= float(part.get(name)) <= width for name in ('x1', 'x2')), part.attrib)

    def test_shown_numbers(self):
        """In full rows each charge stands beside its bar, by the guest's number."""
        root = ElementTree.fromstring(draw_picture(market_of(EVENING)))
        texts = [part.text for part in root.iter(SVG + 'text')]
        cleared = clear(market_of(EVENING))
        for charge in filter(None, cleared.charges):
            self.assertIn(f'{charge:,}', texts)
        for words_ in ('310', '4 of 8 stations', '10 of 24 guests', '80,455', '67,580', '12,875', 'cut 310',
                       'Station 7',
                       'floor 12,875', 'sold 83 kWh, paid 25,730', '1 bay free', 'ask 420, 8 bids'):
            self.assertIn(words_, texts)

    def test_layout(self):
        room = -24 - 24 - 86
        for stations, width, size, columns in ((2, 1120, FULL, 2), (4, 1120, FULL, 4), (5, 1120, FULL, 5),
                                               (10, 1120, FULL, 5),
                                               (20, 1120, LEAN, 10), (20, 1054, LEAN, 10),
                                               (20, 1053, MARKS, 20), (40, 400, MARKS, 10)):
            with self.subTest(stations=stations, width=width):
                self.assertEqual(layout(stations, width + room)[:2], (size, columns))

    def test_guest(self):
        for guest in range(1, 25):
            text = draw_picture(market_of(EVENING), guest=guest)
            self.assertIn(f'>Guest {guest}: ', text)
            self.assertIn(PICK, text)
        self.assertNotIn(PICK, draw_picture(market_of(EVENING)))
        hidden = draw_picture(market_of(LARGEST), guest=86)
        self.assertIn('>86 is 37th<', hidden)

    def test_edges(self):
        equal = Market([5] * 40, [1] * 40, [1], [1], [9] * 40)
        text = draw_picture(equal)
        self.assertIn('No station is open: no ask is below the cut.', text)
        self.assertIn('>and 32 more<', text)
        self.assertIn('no bids', draw_picture(Market([5], [1], [], [], [])))
        self.assertIn('no bid at an open station', draw_picture(Market([1, 2], [1, 1], [1], [1], [0, 0]), guest=1))
        wide = Market([1, 10 ** 6], [200, 200], [1000] * 3, [1, 2, 2 ** 32 - 1], [10 ** 6] * 6)
        self.on_paper(ElementTree.fromstring(draw_picture(wide, guest=3, width=400, title='W' * 200)), 400)

    def test_command(self):
        for name, most in ((TABLE, 16000), (EVENING, 32000), (LARGEST, 200000)):
            self.ends(0, '', '', here('picture', name, self.path('p.svg')))
            self.assertLess(len(self.read('p.svg')), most)
            self.assertIn(os.path.basename(name), ElementTree.fromstring(self.read('p.svg'))[0].text)
        self.ends(0, '', '', here('picture', EVENING, self.path('p.svg'), '--title', 'A & <B>', '--guest', '10',
                                  '--quiet',
                                  '--rule', '2', '--width', '800'))
        root = ElementTree.fromstring(self.read('p.svg'))
        self.assertEqual((root[0].text, root.get('width')), ('A & <B>', '800'))
        self.assertTrue(bay('picture', '-', '-', data=market_of(CASE_E).to_sheet()).out.startswith(b'<svg '))
        self.ends(1, 'refused 24\n', 'guest 25', here('picture', EVENING, self.path('x.svg'), '--guest', '25'))
        self.ends(1, 'refused 6\n', 'station 2', here('picture', REFUSED, self.path('x.svg')))
        self.assertFalse((self.folder / 'x.svg').exists())


if __name__ == '__main__':
    unittest.main()
