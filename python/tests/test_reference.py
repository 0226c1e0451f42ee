"""Random calls of the package against the answers of the reference (rust/reference, bin/answers.rs)."""
import os
import random
import subprocess
import unittest
from pathlib import Path

import bay_market
from bay_market import Ledger, Market, Refused, clear, explain, gains, join, mark, menu, place, what_if
from tests import draw

ANSWERS = Path(os.environ.get('BAY_MARKET_ANSWERS')
               or Path(__file__).resolve().parents[2] / 'rust/target/release/answers')
CALLS = 20_000
WIDE = {'asks': 1_000_001, 'tickets': 2 ** 32 - 1, 'bids': 2 ** 32 - 1}


def lists_of(market):
    return [getattr(market, name).tolist() for name in draw.LISTS]


def market_lists(market):
    return [*lists_of(market), [market.width]]


def spoilt(rng):
    """The lists of a market with a chance of one or two faults, and its bids, as rows where they are too wide."""
    held = draw.lists(rng)
    for _ in range(rng.choice((0, 0, 0, 1, 2))):
        name = rng.choice(draw.LISTS)
        values = held[name]
        if rng.random() < 0.3:
            held[name] = values[:-1] if rng.random() < 0.5 else values + [1]
        elif values:
            values[rng.randrange(len(values))] = rng.choice((0, 1, 201, 1001, WIDE.get(name, 65535)))
    if rng.random() < 0.02:
        held['bids'] = [[1] * (len(held['asks']) + 1) for _ in held['amounts']]
    return held


def any_market(rng):
    return Market(**spoilt(rng))


def rule(rng):
    return rng.choice((1, 1, 2, 2, 2, 0, 3, 255)) if rng.random() < 0.2 else rng.choice((1, 2))


def outcome(cleared):
    out = [[cleared.cut], [cleared.margin], cleared.stations, cleared.charges, cleared.sold, cleared.paid]
    if cleared.places is not None:
        out += [sum(cleared.places, []), cleared.floors]
    return out


# Each of these gives the lists of a call and what makes the package's answer in lists.

def read(rng):
    sheet = draw.market(rng).to_sheet()
    sheet = sheet if rng.random() < 0.3 else draw.changed(sheet, rng, bytes(range(256)))
    return [list(sheet)], lambda: lists_of(Market.from_sheet(sheet))


def read_csv(rng):
    text = draw.text_of(draw.market(rng), rng)
    text = text if rng.random() < 0.3 else draw.changed(text, rng, b'0123456789,\r\n;" .-\xef')
    return [list(text)], lambda: lists_of(Market.from_csv(text))


def write(rng):
    market = any_market(rng)
    return market_lists(market), lambda: [list(market.to_sheet())]


def place_bids(rng):
    n, m = rng.randint(0, 9), rng.randint(0, 9)
    top, wide = rng.choice((31, 31, 31, 33)), rng.choice((1000, 1_000_000, 1_000_000, 1_000_001))
    prices, falls = ([rng.randint(0, rng.choice((9, wide))) for _ in range(n)] for _ in range(2))
    cells = [[(rng.randint(0, top), rng.randint(0, top)) for _ in range(size)] for size in (n, m)]
    prices = prices + [1] * (rng.random() < 0.1)
    return [prices, falls, *([cell[k] for cell in held] for held in cells for k in (0, 1))], \
        lambda: [place(prices, falls, *cells).tolist()]


def joined(rng):
    first = spoilt(rng)
    second = spoilt(rng)
    if rng.random() < 0.9:
        second.update(asks=list(first['asks']), bays=list(first['bays']))
    m = len(first['asks'])
    if rng.random() < 0.9:
        second['bids'] = draw.row(rng, m * len(second['amounts']))
    if rng.random() < 0.8:
        second['tickets'] = [(ticket + 10 ** 6) % 2 ** 32 for ticket in second['tickets']]
    one, two = Market(**first), Market(**second)
    return [*market_lists(one), *market_lists(two)], lambda: lists_of(join(one, two))


def cleared(rng, **how):
    by, market = rule(rng), any_market(rng)
    return [[by], *market_lists(market)], lambda: outcome(clear(market, by, **how))


def explained(rng):
    by, market = rule(rng), any_market(rng)

    def told():
        got = explain(market, by)
        return [list(got.codes), got.stations, got.charges, got.reasons]
    return [[by], *market_lists(market)], told


def guest_of(rng, market):
    return rng.randint(0, market.n + 1) if rng.random() < 0.2 else rng.randint(min(1, market.n), market.n)


def tried(rng):
    by, market = rule(rng), any_market(rng)
    guest, worths, row = guest_of(rng, market), draw.row(rng, market.m), draw.row(rng, market.m)
    worths = worths if rng.random() < 0.5 or not 1 <= guest <= market.n else market.row(guest)
    row = row + [1] * (rng.random() < 0.05)
    row[:1] = [1_000_001] if rng.random() < 0.05 else row[:1]

    def answer():
        got = what_if(market, guest, worths, row, by)
        for held, seat in ((market, got.first_seat), (market.with_row(guest, row), got.second_seat)):
            assert clear(held, by).seats[guest - 1] == seat
        return [[got.first_gain], [got.second_gain], got.changes]
    return [[by], *market_lists(market), [guest], worths, row], answer


def listed(rng):
    by, market = rule(rng), any_market(rng)
    guest = guest_of(rng, market)

    def answer():
        got = [pair or (bay_market._c.NO_BAR, 0) for pair in menu(market, guest, by)]
        return [[bar for bar, _ in got], [price for _, price in got]]
    return [[by], *market_lists(market), [guest]], answer


def gained(rng):
    by, market = rule(rng), any_market(rng)
    guest, worths = guest_of(rng, market), draw.row(rng, market.m)
    rows = draw.row(rng, market.m * rng.randint(0, 5)) + [1] * (rng.random() < 0.05)
    return [[by], *market_lists(market), [guest], worths, rows], lambda: [gains(market, guest, worths, rows, by)]


def marked(rng):
    by, market = rule(rng), any_market(rng)
    try:
        handed = clear(market, by, marked=True)
    except Refused:
        handed = bay_market.Clearing(by, False, 1, 1, [0] * market.n, [0] * market.n, [0] * market.m, [0] * market.m,
                                     [[0] * market.m] * market.n, [0] * market.m)
    flat = dict(zip(('cut', 'margin', 'stations', 'charges', 'sold', 'paid', 'places', 'floors'), outcome(handed)))
    name = rng.choice(list(flat))
    if rng.random() < 0.6 and flat[name]:
        at = rng.randrange(len(flat[name]))
        flat[name] = [value + (k == at) for k, value in enumerate(flat[name])]
    elif rng.random() < 0.3 and name not in ('cut', 'margin'):
        flat[name] = flat[name] + [0]
    handed = handed._replace(**{**flat, 'cut': flat['cut'][0], 'margin': flat['margin'][0]})
    order = ('stations', 'charges', 'sold', 'paid', 'places', 'floors', 'cut', 'margin')
    return [[by], *market_lists(market), *(flat[key] for key in order)], \
        lambda: [[int(mark(market, handed, by))]]


def posted(rng):
    by, market = rule(rng), any_market(rng)
    near = rng.choice((0, 5, 10 ** 9, 10 ** 15 - 10 ** 6, rng.choice((10 ** 15, 10 ** 15 + 1))))

    def account():
        return rng.choice((0, 0, 0, near))

    def size(least, most):
        return max(0, rng.choice((least - 1, most + 1))) if rng.random() < 0.05 else rng.choice((least, most))
    guests = [account() for _ in range(size(market.n, 200))]
    stations = [(account(), account()) for _ in range(size(market.m, 40))]
    last = [rng.choice((0, 5, rng.choice((5, 2 ** 32 - 2, 2 ** 32 - 1)))) for _ in range(size(8, 8))]
    desk, house = rng.choice((*range(8), rng.choice((0, 8, 255)))), account()
    turn = (last[desk] + 1) % 2 ** 32 if desk < len(last) else 1
    turn = turn if rng.random() < 0.9 else rng.choice((0, 1, 7))

    def answer():
        book = Ledger.of(guests, stations, house, last)
        try:
            book.post(market, turn, desk, by)
        except Refused:
            assert book == Ledger.of(guests, stations, house, last), 'a refused posting changed the book'
            raise
        return [book.guests, [number for pair in book.stations for number in pair], [book.house], book.last]
    accounts = [number for pair in stations for number in pair]
    return [[by], *market_lists(market), [desk], [turn], guests, accounts, [house], last], answer


DRAWN = {'read': read, 'read_csv': read_csv, 'write': write, 'place_bids': place_bids, 'join': joined, 'clear': cleared,
         'clear_efficient': lambda rng: cleared(rng, quiet=True), 'clear_marked': lambda rng: cleared(rng, marked=True),
         'explain': explained, 'try': tried, 'menu': listed, 'gains': gained, 'mark': marked, 'post': posted}


def line(lists):
    return ';'.join(' '.join(map(str, numbers)) for numbers in lists)


class Reference(unittest.TestCase):
    def test_random_calls(self):
        self.assertEqual(set(DRAWN), set(bay_market._c.SIGNATURES), 'a call of the header is not drawn')
        self.assertTrue(ANSWERS.exists(), f'{ANSWERS} is not built: tests/python.sh builds it')
        rng, cases, got = random.Random(42), [], []
        for k in range(CALLS):
            name = list(DRAWN)[k % len(DRAWN)]
            lists, answer = DRAWN[name](rng)
            cases.append(f'{name};{line(lists)}')
            try:
                got.append(line(answer()))
            except Refused as refused:
                got.append(f'refused {refused.number}')
        said = subprocess.run([ANSWERS], input='\n'.join(cases) + '\n', capture_output=True, text=True, check=True)
        wanted = said.stdout.splitlines()
        self.assertEqual(len(wanted), CALLS)
        accepted = {name: 0 for name in DRAWN}
        for case, mine, theirs in zip(cases, got, wanted):
            self.assertEqual(mine, theirs, f'the case: {case}')
            accepted[case.split(';')[0]] += not mine.startswith('refused')
        refused = {text for text in got if text.startswith('refused')}
        self.assertGreater(min(accepted.values()), CALLS // len(DRAWN) // 4, accepted)
        print(f'{CALLS:,} calls as the reference has them, {sum(accepted.values()):,} accepted, '
              f'{len(refused)} numbers of refusals')


if __name__ == '__main__':
    unittest.main()
