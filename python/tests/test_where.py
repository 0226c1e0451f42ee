"""Faults of every number at random places: the engine's number, and the place that the package finds for it.

A place in lists is held to the engine by mending it: whatever was planted is found one after the other, and then the
engine accepts. A place in a text is held to it by what stands before and after: the text up to the place can be ended
so that the engine accepts it, and with the byte at the place whatever follows is refused with the number."""
import random
import unittest

from bay_market import Ledger, Market, Refused, clear, explain, gains, join, mark, menu, place, what_if
from bay_market import where_csv, where_sheet
from tests import draw

SEEN = set()


def refusal(action):
    """The refusal of a call, or None."""
    try:
        action()
        return None
    except Refused as refused:
        SEEN.add(refused.number)
        return refused


def number(action):
    refused = refusal(action)
    return refused.number if refused else 0


# of each list the number of its fault, and wrong values
WRONG = {'asks': (6, (1_000_001, 2 ** 32 - 1)), 'bays': (7, (0, 201, 65535)), 'amounts': (8, (0, 1001, 65535)),
         'bids': (9, (1_000_001, 2 ** 32 - 1))}


def plant(rng, lists):
    """Puts a wrong value, or a ticket that is there already, at a random place. Gives number and place."""
    name = rng.choice([name for name in draw.LISTS if lists[name]])
    at, m = rng.randrange(len(lists[name])), len(lists['asks'])
    if name == 'tickets':
        if len(lists['tickets']) < 2:
            return plant(rng, lists)
        one, two = sorted(rng.sample(range(len(lists['tickets'])), 2))
        lists['tickets'][two] = lists['tickets'][one]
        return 15, None
    lists[name][at] = rng.choice(WRONG[name][1])
    if name == 'bids':
        return 9, {'guest': at // m + 1, 'station': at % m + 1}
    return WRONG[name][0], {'guest' if name == 'amounts' else 'station': at + 1}


def mend(lists, refused):
    """Puts a right value at the place of a refusal; fails where there is none."""
    where, m = refused.where, len(lists['asks'])
    if refused.number == 15:
        assert lists['tickets'][where.guest - 1] in lists['tickets'][:where.guest - 1], 'not the second of two tickets'
        lists['tickets'][where.guest - 1] = next(k for k in range(1000) if k not in lists['tickets'])
        return
    name = {6: 'asks', 7: 'bays', 8: 'amounts', 9: 'bids'}[refused.number]
    at = {'asks': (where.station or 0) - 1, 'bays': (where.station or 0) - 1, 'amounts': (where.guest or 0) - 1,
          'bids': ((where.guest or 0) - 1) * m + (where.station or 0) - 1}[name]
    assert at >= 0 and lists[name][at] in WRONG[name][1], f'{where}: {lists[name][at]} stands there'
    assert f'{lists[name][at]:,}' in where.detail, f'{where.detail}: {lists[name][at]} stands there'
    lists[name][at] = 1


class Lists(unittest.TestCase):
    def test_mending(self):
        """Of every call on a market the place is right: planted faults are mended until the engine accepts."""
        rng = random.Random(1)
        calls = {'to_sheet': Market.to_sheet, 'clear': clear, 'quiet': lambda market: clear(market, quiet=True),
                 'marked': lambda market: clear(market, marked=True), 'explain': explain,
                 'menu': lambda market: menu(market, 1), 'gains': lambda market: gains(market, 1, [1] * market.m, []),
                 'try': lambda market: what_if(market, 1, [1] * market.m, [1] * market.m),
                 'post': lambda market: Ledger(200, 40).post(market, 1)}
        for case in range(1500):
            lists = draw.lists(rng, n=rng.randint(1, 9))
            name = rng.choice(list(calls))
            planted = [plant(rng, lists) for _ in range(rng.randint(1, 4))]
            with self.subTest(case=case, call=name, lists=lists):
                for _ in range(12):
                    market = Market(**lists)
                    refused = refusal(lambda: calls[name](market))
                    if refused is None:
                        break
                    self.assertIn(refused.number, {number for number, _ in planted})
                    mend(lists, refused)
                else:
                    self.fail(f'{refused} is not mended')

    def test_first_place(self):
        """A single fault is found where it was planted."""
        rng = random.Random(2)
        for _ in range(1500):
            lists = draw.lists(rng, n=rng.randint(1, 9))
            planted, owner = plant(rng, lists)
            with self.subTest(lists=lists):
                refused = refusal(lambda: clear(Market(**lists)))
                self.assertEqual(refused.number, planted)
                self.assertEqual(refused.where.known(), owner or {'guest': refused.where.guest})

    def test_lengths(self):
        rng = random.Random(3)
        for _ in range(300):
            lists = draw.lists(rng, n=rng.randint(1, 9))
            name = rng.choice(('bays', 'tickets', 'bids'))
            lists[name] = lists[name][:-1] if rng.random() < 0.5 else lists[name] + [1]
            refused = refusal(lambda: clear(Market(**lists)))
            self.assertEqual((refused.number, refused.where.list), (5, name))
        wide = Market([2, 6], [1, 1], [3], [1], [[8, 0, 5]])
        refused = refusal(lambda: clear(wide))
        self.assertEqual((refused.number, refused.where.list, refused.where.detail), (5, 'bids', 'rows of 3, wanted 2'))

    def test_counts(self):
        for n, m in ((201, 1), (1, 0), (1, 41), (0, 0)):
            market = Market([1] * m, [1] * m, [1] * n, range(n), [1] * (n * m))
            refused = refusal(lambda: clear(market))
            self.assertEqual((refused.number, refused.where.detail), (2, f'{n} guests, {m} stations'))

    def test_rules(self):
        market = Market([2, 6], [1, 1], [3, 3], [1, 2], [8, 0, 8, 0])
        right = clear(market, marked=True)
        for rule in (0, 3, 255, 256, 257, 258, 2 ** 32 + 1, -1, -255, 1.0, '1', None, [1]):
            for call in (lambda: clear(market, rule), lambda: clear(market, rule, quiet=True),
                         lambda: clear(market, rule, marked=True), lambda: explain(market, rule),
                         lambda: menu(market, 1, rule), lambda: gains(market, 1, [1, 1], [], rule),
                         lambda: what_if(market, 1, [1, 1], [1, 1], rule), lambda: mark(market, right, rule),
                         lambda: Ledger().post(market, 1, 0, rule)):
                refused = refusal(call)
                self.assertEqual((refused.number, refused.where.detail), (18, f'the rule is {rule!r}'))

    def test_guests(self):
        market = Market([2, 6], [1, 1], [3, 3], [1, 2], [8, 0, 8, 0])
        for guest in (0, 3, 2 ** 32 + 1, 2 ** 64 + 1, -1, 1.0, '1', None):
            for call in (lambda: menu(market, guest), lambda: gains(market, guest, [1, 1], []),
                         lambda: what_if(market, guest, [1, 1], [1, 1])):
                refused = refusal(call)
                self.assertEqual((refused.number, refused.where.guest), (24, guest))

    def test_rows(self):
        rng = random.Random(4)
        for _ in range(400):
            market = draw.market(rng, n=rng.randint(1, 5))
            m, rows = market.m, rng.randint(1, 4)
            given = {'worths': [1] * m, 'row': [1] * m, 'rows': [1] * (m * rows)}
            name = rng.choice(list(given))
            call = (lambda: gains(market, 1, given['worths'], given['rows'])) if name == 'rows' or rng.random() < 0.3 \
                and name == 'worths' else (lambda: what_if(market, 1, given['worths'], given['row']))
            at = rng.randrange(len(given[name]))
            given[name][at] = 1_000_001
            refused = refusal(call)
            self.assertEqual((refused.number, refused.where.list, refused.where.station), (9, name, at % m + 1))
            if name == 'rows':
                self.assertTrue(refused.where.detail.startswith(f'row {at // m + 1}, '), refused)
            given[name] = given[name] + [1]
            if m > 1 or name != 'rows':
                refused = refusal(call)
                self.assertEqual((refused.number, refused.where.list), (5, name))

    def test_submissions(self):
        rng = random.Random(5)
        for _ in range(200):
            market = draw.market(rng, n=rng.randint(1, 5))
            handed = clear(market, marked=True)
            name = rng.choice(('stations', 'charges', 'sold', 'paid', 'floors', 'places'))
            value = sum(handed.places, []) if name == 'places' else getattr(handed, name)
            wrong = handed._replace(**{name: value + [0] if rng.random() < 0.5 else value[:-1]})
            refused = refusal(lambda: mark(market, wrong))
            self.assertEqual((refused.number, refused.where.list), (10, name))
        lists = draw.lists(rng, n=3)
        lists['amounts'][1] = 0
        refused = refusal(lambda: mark(Market(**lists), handed._replace(
            stations=[0] * 3, charges=[0] * 3, **{key: [0] * len(lists['asks']) for key in ('sold', 'paid', 'floors')},
            places=[0] * len(lists['bids']))))
        self.assertEqual((refused.number, refused.where.guest), (8, 2))


class Places(unittest.TestCase):
    def test_places(self):
        rng = random.Random(6)
        for _ in range(500):
            n, m = rng.randint(1, 9), rng.randint(1, 9)
            cells = {'guest': [[rng.randint(0, 31), rng.randint(0, 31)] for _ in range(n)],
                     'station': [[rng.randint(0, 31), rng.randint(0, 31)] for _ in range(m)]}
            money = [[rng.randint(0, 10 ** 6) for _ in range(n)] for _ in range(2)]
            kind = rng.choice(('guest', 'station', 'money'))
            at = rng.randrange(len(cells.get(kind, money[0])))
            if kind == 'money':
                rng.choice(money)[at] = rng.choice((1_000_001, 2 ** 32 - 1))
            else:
                cells[kind][at][rng.randrange(2)] = rng.choice((32, 65535))
            refused = refusal(lambda: place(*money, cells['guest'], cells['station']))
            self.assertEqual(refused.number, 17 if kind == 'money' else 16)
            self.assertEqual(refused.where.known(), {'guest' if kind == 'money' else kind: at + 1})
        self.assertEqual(refusal(lambda: place([1, 2], [1], [(0, 0)], [(0, 0)])).where.list, 'prices')
        self.assertEqual(refusal(lambda: place([1], [1, 2], [(0, 0)], [(0, 0)])).where.list, 'falls')
        self.assertEqual(number(lambda: place([], [], [], [])), 2)


class Gates(unittest.TestCase):
    def test_own_faults(self):
        """A fault of one gate names that gate and the place there."""
        rng = random.Random(7)
        for _ in range(300):
            gates = [draw.lists(rng, n=rng.randint(1, 5), m=3) for _ in range(2)]
            gate = rng.randrange(2)
            planted, _ = plant(rng, gates[gate])
            refused = refusal(lambda: join(*(Market(**lists) for lists in gates)))
            self.assertEqual((refused.number, refused.where.gate), (planted, ('first', 'second')[gate]))
            alone = refusal(lambda: clear(Market(**gates[gate])))
            self.assertEqual(refused.where._replace(gate=None), alone.where)
            gates[1 - gate]['asks'][0] = 1_000_001
            refused = refusal(lambda: join(*(Market(**lists) for lists in gates)))
            self.assertEqual(refused.where.gate, 'first')

    def test_both(self):
        rng = random.Random(8)
        for _ in range(300):
            first = draw.lists(rng, n=rng.randint(1, 5))
            second = {**draw.lists(rng, n=rng.randint(1, 5), m=len(first['asks'])), 'asks': list(first['asks']),
                      'bays': list(first['bays'])}
            first['tickets'] = rng.sample(range(100), len(first['tickets']))
            second['tickets'] = rng.sample(range(100, 200), len(second['tickets']))
            self.assertEqual(number(lambda: join(Market(**first), Market(**second))), 0)
            name = rng.choice(('asks', 'bays', 'tickets'))
            at = rng.randrange(len(second[name]))
            if name == 'tickets':
                second[name][at] = rng.choice(first[name])
            else:
                second[name][at] = second[name][at] - 1 if second[name][at] > 1 else second[name][at] + 1
            refused = refusal(lambda: join(Market(**first), Market(**second)))
            known = {'guest': at + 1, 'gate': 'second'} if name == 'tickets' else {'station': at + 1}
            self.assertEqual((refused.number, refused.where.known()), (21 if name == 'tickets' else 20, known))
        one, two = draw.lists(rng, n=120, m=2), draw.lists(rng, n=90, m=2)
        two.update(asks=one['asks'], bays=one['bays'], tickets=[ticket ^ 2 ** 31 for ticket in two['tickets']])
        refused = refusal(lambda: join(Market(**one), Market(**two)))
        self.assertEqual((refused.number, refused.where.detail), (2, '120 and 90 guests are 210'))
        three = draw.lists(rng, n=1, m=3)
        refused = refusal(lambda: join(Market(**one), Market(**three)))
        self.assertEqual((refused.number, refused.where.detail), (20, '2 stations at the first gate, 3 at the second'))


class Books(unittest.TestCase):
    market = Market([2, 6], [1, 1], [3, 3], [1, 2], [8, 0, 8, 0])           # charge 24, sold 3, paid 18, margin 6

    def test_accounts(self):
        """The least account that is refused, of each kind and at each place, beyond the market's too."""
        top = 10 ** 15
        added = {('guest', 1): 24, ('station', 1): 3, ('paid', 1): 18, ('house', 0): 6}
        for kind, size in (('guest', 4), ('station', 3), ('paid', 3), ('house', 1)):
            for at in range(1, size + 1):
                for over in (0, 1):
                    guests, stations, house = [0] * 4, [[0, 0] for _ in range(3)], 0
                    value = top - added.get((kind, at if kind != 'house' else 0), 0) + over
                    if kind == 'guest':
                        guests[at - 1] = value
                    elif kind == 'house':
                        house = value
                    else:
                        stations[at - 1][kind == 'paid'] = value
                    book = Ledger.of(guests, [tuple(pair) for pair in stations], house, [0] * 8)
                    refused = refusal(lambda: book.post(self.market, 1))
                    self.assertEqual(refused.number if refused else 0, 12 * over)
                    if refused and kind == 'house':
                        self.assertEqual((refused.where.known(), 'the house' in refused.where.detail), ({}, True))
                    elif refused:
                        self.assertEqual(refused.where.known(), {'guest' if kind == 'guest' else 'station': at})

    def test_rounds_and_desks(self):
        last = [0, 5, 7, 9, 11, 13, 15, 2 ** 32 - 1]
        for desk in range(8):
            for turn in (0, last[desk], last[desk] + 2, last[desk] + 1 + 2 ** 32, -1, 1.0, None):
                book = Ledger.of([0, 0], [(0, 0), (0, 0)], 0, last)
                refused = refusal(lambda: book.post(self.market, turn, desk))
                self.assertEqual((refused.number, refused.where.desk), (11, desk), turn)
                self.assertIn(f'its last round is {last[desk]}', refused.where.detail)
                self.assertEqual(book.last, last)
        for desk in (8, 255, 256, 257, 2 ** 32, -1, 1.0, None):
            refused = refusal(lambda: Ledger().post(self.market, 1, desk))
            self.assertEqual((refused.number, refused.where.desk), (25, desk))

    def test_sizes(self):
        for book in (Ledger(1, 2), Ledger(2, 1), Ledger(201, 40), Ledger(200, 41),
                     Ledger.of([0, 0], [(0, 0), (0, 0)], 0, [0] * 7)):
            refused = refusal(lambda: book.post(self.market, 1))
            self.assertEqual(refused.number, 13)
            self.assertIn(f'the book has {len(book.guests)} guests, {len(book.stations)} stations and {len(book.last)} '
                          'desks', refused.where.detail)


def fields_of(market):
    """The fields of a market's sheet: bytes, and who owns them."""
    wide = (market.m + 7) // 8
    yield market.n.to_bytes(2, 'little') + market.m.to_bytes(2, 'little'), {}
    for station in range(1, market.m + 1):
        yield market.asks[station - 1].to_bytes(4, 'little'), {'station': station}
        yield market.bays[station - 1].to_bytes(2, 'little'), {'station': station}
    for guest in range(1, market.n + 1):
        row = market.row(guest)
        yield market.amounts[guest - 1].to_bytes(2, 'little'), {'guest': guest}
        yield market.tickets[guest - 1].to_bytes(4, 'little'), {'guest': guest}
        yield sum(1 << k for k, bid in enumerate(row) if bid).to_bytes(wide, 'little'), {'guest': guest, 'map': True}
        for station, bid in enumerate(row, 1):
            if bid:
                yield bid.to_bytes(4, 'little'), {'guest': guest, 'station': station}


class Sheets(unittest.TestCase):
    def test_planted(self):
        rng = random.Random(9)
        for case in range(1500):
            market = draw.market(rng, n=rng.randint(1, 6))
            fields = list(fields_of(market))
            sheet = b''.join(data for data, _ in fields)
            self.assertEqual(sheet, market.to_sheet())
            kind = rng.choice((1, 2, 3, 4, 19))
            wrong, wanted = bytearray(sheet), {}
            starts = [sum(len(data) for data, _ in fields[:k]) for k in range(len(fields))]
            if kind == 1:
                cut = rng.randrange(len(sheet))
                owner = fields[max(k for k, start in enumerate(starts) if start <= cut)][1]
                wanted = {'byte': cut, **{key: value for key, value in owner.items() if key != 'map'}}
                del wrong[cut:]
            elif kind == 2:
                n, m = rng.choice(((201, 1), (65535, 40), (1, 0), (200, 41)))
                wrong[:4] = n.to_bytes(2, 'little') + m.to_bytes(2, 'little')
                wanted = {'byte': 0 if n > 200 else 2}
            elif kind == 3:
                maps = [k for k, (_, owner) in enumerate(fields) if 'map' in owner]
                k = rng.choice(maps)
                spare = range(market.m, 8 * len(fields[k][0]))
                if not spare:
                    continue
                bit = rng.choice(spare)
                wrong[starts[k] + bit // 8] |= 1 << bit % 8
                wanted = {'byte': starts[k] + bit // 8, 'guest': fields[k][1]['guest']}
            elif kind == 4:
                wrong += bytes(rng.randint(1, 9))
                wanted = {'byte': len(sheet)}
            else:
                bids = [k for k, (_, owner) in enumerate(fields) if {'guest', 'station'} <= set(owner)]
                if not bids:
                    continue
                k = rng.choice(bids)
                wrong[starts[k]:starts[k] + 4] = bytes(4)
                wanted = {'byte': starts[k], **fields[k][1]}
            with self.subTest(case=case, sheet=bytes(wrong).hex()):
                refused = refusal(lambda: Market.from_sheet(bytes(wrong)))
                self.assertEqual((refused.number, refused.where.known()), (kind, wanted))
                self.assertTrue(refused.where.detail)

    def test_random_changes(self):
        """The walk comes to the engine's number, whatever the bytes."""
        rng = random.Random(10)
        for _ in range(6000):
            sheet = draw.changed(draw.market(rng, n=rng.randint(0, 5), m=rng.choice((1, 3, 8, 9))).to_sheet(), rng,
                                 bytes(range(256)) + bytes(64))
            found, where = where_sheet.look(sheet)
            self.assertEqual(number(lambda: Market.from_sheet(sheet)), found, sheet.hex())
            self.assertEqual(bool(found), bool(where), sheet.hex())


def ended(text):
    """A text with the rest of its line, and of the first two lines, as it may be."""
    if text.endswith(b'\r'):
        text += b'\n'
    *lines, last = text.split(b'\r\n')
    if last:
        last += b'1' if last.endswith(b',') else b''
        wanted = len(lines[0].split(b',')) + 2 * (len(lines) > 1) if lines else 0
        last += b',1' * (wanted - len(last.split(b',')))
        lines.append(last)
    if not lines:
        lines.append(b'1')
    if len(lines) == 1:
        lines.append(b','.join([b'1'] * len(lines[0].split(b','))))
    return b''.join(line + b'\r\n' for line in lines)


class Texts(unittest.TestCase):
    def hold(self, text, rng):
        """The engine's number, and the place held to it."""
        refused = refusal(lambda: Market.from_csv(text))
        found, where = where_csv.look(text)
        self.assertEqual(refused.number if refused else 0, found, text)
        if not refused:
            return 0
        self.assertEqual(refused.where, where)
        before, at = text[:where.byte], where.byte
        start = at
        while start and 48 <= text[start - 1] <= 57:
            start -= 1
        good = text[:start] if refused.number == 23 else before
        self.assertEqual(number(lambda: Market.from_csv(ended(good))), 0, (text, good, ended(good)))
        if refused.number == 23:
            self.assertEqual(number(lambda: Market.from_csv(ended(before))), 23, text)
        if at < len(text):
            for more in (text[:at + 1], ended(text[:at + 1]), text[:at + 1] + bytes(rng.choices(b'01,\r\n', k=5))):
                self.assertEqual(number(lambda: Market.from_csv(more)), refused.number, (text, more))
        *lines, last = before.split(b'\r\n')
        self.assertEqual((where.line, where.field), (len(lines) + 1, last.count(b',') + 1))
        self.assertTrue(where.detail)
        return refused.number

    def test_random_changes(self):
        rng = random.Random(11)
        seen = []
        for _ in range(6000):
            text = draw.text_of(draw.market(rng, n=rng.randint(0, 4), m=rng.choice((1, 2, 3, 5))), rng)
            seen.append(self.hold(draw.changed(text, rng, b'0123456789,\r\n;" .-\xef'), rng))
        self.assertGreater(seen.count(22), 3000)
        self.assertGreater(seen.count(0), 300)

    def test_planted(self):
        """Fields that are too large, at random places; counts that are too large; every cut of a text."""
        rng = random.Random(12)
        for _ in range(800):
            market = draw.market(rng, n=rng.randint(0, 4), m=rng.choice((1, 2, 3, 5)))
            lines = [line.split(b',') for line in draw.text_of(market, rng).split(b'\r\n')[:-1]]
            line = rng.randrange(len(lines))
            field = rng.randrange(len(lines[line]))
            short = line == 1 or (line > 1 and field == 1)
            lines[line][field] = rng.choice((b'65536' if short else b'4294967296', b'00000000001', b'9' * 11))
            text = b''.join(b','.join(fields) + b'\r\n' for fields in lines)
            self.assertEqual(self.hold(text, rng), 23)
            where = refusal(lambda: Market.from_csv(text)).where
            self.assertEqual((where.line, where.field), (line + 1, field + 1))
        forty = b','.join([b'1'] * 40)
        for text in (forty + b',1\r\n', forty + b',', b'1\r\n1\r\n' + b'1,1,\r\n' * 200 + b'x',
                     b'1\r\n1\r\n' + b'1,1,\r\n' * 200 + b'\r\n', b'1\r\n1\r\n' + b'1,1,\r\n' * 201,
                     b'1\r\n1\r\n' + b'1,1,\r\n' * 200 + b'12345678901,'):
            self.assertEqual(self.hold(text, rng), 2, text)
        self.assertEqual(self.hold(forty + b'\r\n' + forty + b'\r\n', rng), 0)
        self.assertEqual(self.hold(b'1\r\n1\r\n' + b'1,1,\r\n' * 200, rng), 0)
        text = draw.text_of(draw.market(rng, n=3, m=3), rng)
        for cut in range(len(text)):
            self.hold(text[:cut], rng)


class Every(unittest.TestCase):
    def test_every_number(self):
        """The tests of this file meet every number but 14: the package always lends room for the largest sheet."""
        self.assertEqual(set(range(1, 26)) - SEEN, {14})


def load_tests(loader, _tests, _pattern):
    """Every comes last."""
    return unittest.TestSuite(loader.loadTestsFromTestCase(case)
                              for case in (Lists, Places, Gates, Books, Sheets, Texts, Every))


if __name__ == '__main__':
    unittest.main()
