#!/usr/bin/env python3
"""The shared library through tools/exports_table.py, at the path given: case E read, also as text, cleared, explained,
joined of two gates, posted by a desk and written, another row of case G, its clearing handed in, and calls that are
refused and leave what they were lent."""
import pathlib
import sys

ROOT = pathlib.Path(__file__).resolve().parent.parent
sys.path.insert(0, str(ROOT / 'tools'))
sys.dont_write_bytecode = True

import exports_table  # noqa: E402

LIBRARY = exports_table.load(sys.argv[1])
SHEET = (ROOT / 'examples/case_e.sheet').read_bytes()
TEXT = b'2,6\r\n1,1\r\n1,3,8,\r\n2,3,8,\r\n'
MARKET = {'asks': [2, 6], 'bays': [1, 1], 'amounts': [3, 3], 'tickets': [1, 2], 'bids': [8, 0, 8, 0], 'width': 2}
RESULTS = {'stations': [7, 7], 'charges': [7, 7], 'sold': [7, 7], 'paid': [7, 7], 'cut': 7, 'margin': 7}


def expect(name, answer, after, **given):
    got = exports_table.call(LIBRARY, f'bay_market_{name}', **given)
    assert got == (answer, after), f'{name}: {got}, expected {(answer, after)}'


sizes = {'amounts': 200, 'tickets': 200, 'asks': 40, 'bays': 40, 'bids': 8000}
lent = {name: [9] * size for name, size in sizes.items()}
case_e = {**{name: MARKET[name] + lent[name][len(MARKET[name]):] for name in lent}, 'n': 2, 'm': 2}
expect('read', 0, case_e, sheet=SHEET, n=0, m=0, **lent)
expect('read_csv', 0, case_e, text=TEXT, n=0, m=0, **lent)
expect('read_csv', 22, {**lent, 'n': 0, 'm': 0}, text=TEXT[:-1], n=0, m=0, **lent)
expect('read_csv', 23, {**lent, 'n': 0, 'm': 0}, text=TEXT + b'4294967296', n=0, m=0, **lent)
cleared = {'stations': [1, 0], 'charges': [24, 0], 'sold': [3, 0], 'paid': [18, 0], 'cut': 6, 'margin': 6}
expect('clear', 0, cleared, rule=1, **MARKET, **RESULTS)
expect('clear', 18, RESULTS, rule=3, **MARKET, **RESULTS)
told = {'codes': [0, 1, 4, 1], 'stations': [1, 0], 'charges': [24, 0], 'reasons': [0, 4]}
expect('explain', 0, told, rule=1, **MARKET, **{name: [7] * len(held) for name, held in told.items()})
case_g = {**MARKET, 'amounts': [3, 2], 'bids': [9, 0, 10, 0]}
tried = {'changes': [7, 7], 'first_gain': 7, 'second_gain': 7}
expect('try', 0, {'changes': [2, 0], 'first_gain': 0, 'second_gain': -7}, rule=1, **case_g, guest=2, worths=[10, 0],
       row=[14, 0], **tried)
expect('try', 24, tried, rule=1, **case_g, guest=3, worths=[10, 0], row=[14, 0], **tried)
expect('try', 9, tried, rule=1, **case_g, guest=2, worths=[10, 0], row=[14, 1_000_001], **tried)
full = {'stations': [1, 0], 'charges': [20, 0], 'sold': [3, 0], 'paid': [18, 0], 'places': [1, 0, 0, 0],
        'floors': [20, 0], 'cut': 6, 'margin': 2}
lent = {**RESULTS, 'places': [7] * 4, 'floors': [7, 7]}
expect('clear_marked', 0, full, rule=1, **case_g, **lent)
expect('clear_marked', 10, {**lent, 'floors': [7]}, rule=1, **case_g, **{**lent, 'floors': [7]})
expect('mark', 0, {'correct': 1}, rule=1, **case_g, **full, correct=7)
expect('mark', 0, {'correct': 0}, rule=1, **case_g, **{**full, 'places': [1, 0, 0, 2]}, correct=7)
expect('mark', 0, {'correct': 0}, rule=1, **case_g, **{**full, 'margin': 2 + (1 << 32)}, correct=7)
expect('mark', 10, {'correct': 7}, rule=1, **case_g, **{**full, 'places': [1, 0, 0]}, correct=7)
expect('mark', 18, {'correct': 7}, rule=0, **case_g, **full, correct=7)
north = {'asks': [2, 6], 'bays': [1, 1], 'amounts': [3], 'tickets': [1], 'bids': [8, 0], 'width': 2}
south = {f'{name}2': held for name, held in {**north, 'tickets': [2]}.items()}
joined = {f'joined_{name}': held for name, held in MARKET.items() if name != 'width'}
lent = {name: [7] * len(held) for name, held in joined.items()}
expect('join', 0, joined, **north, **south, **lent)
expect('join', 21, lent, **north, **{**south, 'tickets2': [1]}, **lent)
expect('write', 0, {'sheet': [*SHEET, 5, 5], 'length': len(SHEET)}, **MARKET, sheet=[5] * (len(SHEET) + 2), length=0)


def post(desk):
    account = exports_table.TYPES['StationAccount']
    answer, book = exports_table.call(LIBRARY, 'bay_market_post', rule=1, **MARKET, desk=desk, round=1, guests=[0, 0],
                                      stations=[account(0, 0), account(0, 0)], house=0, last=[2] * 7 + [0])
    book['stations'] = [(a.sold, a.paid) for a in book['stations']]
    return answer, book


assert post(7) == (0, {'guests': [24, 0], 'stations': [(3, 18), (0, 0)], 'house': 6, 'last': [2] * 7 + [1]})
assert post(8) == (25, {'guests': [0, 0], 'stations': [(0, 0), (0, 0)], 'house': 0, 'last': [2] * 7 + [0]})
