"""The bay market from Python: the proved engine through ctypes.

>>> import bay_market
>>> market = bay_market.Market(asks=[2, 6], bays=[1, 1], amounts=[3, 3], tickets=[1, 2], bids=[[8, 0], [8, 0]])
>>> bay_market.clear(market).seats
[(1, 24), (0, 0)]

Everything that decides is a call of the library; this package carries bytes and shows answers."""
from ._c import CODES, MAX_ACCOUNT, MAX_AMOUNT, MAX_BAYS, MAX_BIDS, MAX_CELL, MAX_DESKS, MAX_GUESTS, MAX_PRICE, \
    MAX_ROUND, MAX_SHEET, MAX_STATIONS, MAX_TEXT, VERSION
from ._library import NoLibrary
from .clearing import Clearing, Engine, Explanation, clear, explain, mark
from .gates import join
from .ledger import Ledger
from .market import Market, is_sheet
from .placing import place
from .refusal import Refused, Where, text_of
from .trying import WhatIf, gains, menu, what_if

__version__ = VERSION
__all__ = ['CODES', 'Clearing', 'Engine', 'Explanation', 'Ledger', 'MAX_ACCOUNT', 'MAX_AMOUNT', 'MAX_BAYS', 'MAX_BIDS',
           'MAX_CELL', 'MAX_DESKS', 'MAX_GUESTS', 'MAX_PRICE', 'MAX_ROUND', 'MAX_SHEET', 'MAX_STATIONS', 'MAX_TEXT',
           'Market', 'NoLibrary', 'Refused', 'VERSION', 'WhatIf', 'Where', 'clear', 'explain', 'gains', 'is_sheet',
           'join', 'mark', 'menu', 'place', 'text_of', 'what_if']
