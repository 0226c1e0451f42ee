"""Clears a market, tells one guest why it wins or loses, and posts the round to a book.

    PYTHONPATH=python python3 examples/one_guest.py examples/evening.sheet 24

After pip install prebuilt/bay_market-*.whl there is no PYTHONPATH. A book on a disk is bay_market.store.Book.
"""
import pathlib
import sys

from bay_market import CODES, Ledger, Market, Refused, clear, explain


def tell(path: str, guest: int) -> None:
    market = Market.from_bytes(pathlib.Path(path).read_bytes())
    cleared, told = clear(market), explain(market)
    if not 1 <= guest <= market.n:
        sys.exit(f'no guest {guest}: there are {market.n}')
    print(f'cut {cleared.cut} margin {cleared.margin}')
    print(told.lines()[guest - 1])
    for station in range(1, market.m + 1):
        code = told.codes[(guest - 1) * market.m + station - 1]
        print(f'at station {station}: {CODES[code]}')
    book = Ledger()
    book.post(market, 1, desk=0)
    print(f'posted: guest {guest} owes {book.guests[guest - 1]}, the house has {book.house}')


if len(sys.argv) != 3 or not sys.argv[2].isdecimal():
    sys.exit('usage: one_guest.py FILE GUEST')
try:
    tell(sys.argv[1], int(sys.argv[2]))
except (OSError, Refused) as error:
    sys.exit(str(error))
