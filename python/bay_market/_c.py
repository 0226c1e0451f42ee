"""What the header has: limits, texts, and the types of each function's arguments.

scripts/exports writes this file from crates/bay_market/src and include/bay_market.h."""
from ctypes import c_size_t, c_uint8, c_uint32, c_uint64, c_void_p
from typing import Any, Dict, Tuple

VERSION = '1.0.0'
VERSION_NUMBER = 1000000
MAX_GUESTS = 200
MAX_STATIONS = 40
MAX_DESKS = 8
MAX_BIDS = 8000
MAX_PRICE = 1000000
MAX_AMOUNT = 1000
MAX_BAYS = 200
MAX_CELL = 31
MAX_SHEET = 34444
MAX_TEXT = 93482
MAX_ACCOUNT = 1000000000000000
MAX_ROUND = 4294967295
NO_BAR = 4294967295
MAX_STACK = 16384
MAX_STACK_READ_CSV = 40960
MAX_STACK_TRY = 45056
RULE_MEDIAN = 1
RULE_TWO_THIRDS = 2

# what an answer says
REFUSALS: Dict[int, str] = {
    0: 'accepted',
    1: 'the sheet ends inside a field',
    2: 'more than 200 guests, no station, or more than 40',
    3: 'a bit map has a bit beyond the last station',
    4: 'bytes follow the last row',
    5: 'a list, the bid table or the row width does not fit the counts',
    6: 'an ask is above 1,000,000',
    7: 'a station has no bays or more than 200',
    8: 'an amount is 0 or above 1,000',
    9: 'a bid or a worth is above 1,000,000',
    10: 'a list that is lent or handed in has another length',
    11: "the round is not the desk's last one plus 1, or no round is left",
    12: 'an account is above 10^15, or would be',
    13: 'the ledger is beyond the limits, too small or not of eight desks',
    14: 'the output is shorter than the sheet',
    15: 'two guests have the same ticket',
    16: 'a cell is off the grid: a coordinate is above 31',
    17: 'a price or fall is above 1,000,000',
    18: 'the number names no rule: it is neither 1 nor 2',
    19: 'a set bit of the sheet has a bid of 0',
    20: "two markets differ in their stations' count, asks or bays",
    21: 'a ticket is in both markets',
    22: 'a byte of the text, or its end, stands where it may not',
    23: 'a field has more than ten digits, or does not fit its table',
    24: "the guest's number is 0 or above the market's guests",
    25: 'the desk is none of the eight: its number is above 7',
}

# what a code says
CODES: Dict[int, str] = {
    0: 'place held',
    1: 'no bid',
    2: 'station not open',
    3: 'bid below the cut',
    4: 'outbid',
}

# the arguments of each function, without bay_market_
SIGNATURES: Dict[str, Tuple[Any, ...]] = {
    'read': (
        c_void_p, c_size_t,  # sheet
        c_void_p, c_size_t,  # amounts
        c_void_p, c_size_t,  # tickets
        c_void_p, c_size_t,  # asks
        c_void_p, c_size_t,  # bays
        c_void_p, c_size_t,  # bids
        c_void_p,  # n
        c_void_p,  # m
    ),
    'read_csv': (
        c_void_p, c_size_t,  # text
        c_void_p, c_size_t,  # amounts
        c_void_p, c_size_t,  # tickets
        c_void_p, c_size_t,  # asks
        c_void_p, c_size_t,  # bays
        c_void_p, c_size_t,  # bids
        c_void_p,  # n
        c_void_p,  # m
    ),
    'write': (
        c_void_p, c_size_t,  # asks
        c_void_p, c_size_t,  # bays
        c_void_p, c_size_t,  # amounts
        c_void_p, c_size_t,  # tickets
        c_void_p, c_size_t,  # bids
        c_size_t,  # width
        c_void_p, c_size_t,  # sheet
        c_void_p,  # length
    ),
    'place_bids': (
        c_void_p, c_size_t,  # prices
        c_void_p, c_size_t,  # falls
        c_void_p, c_size_t,  # guest_first
        c_void_p, c_size_t,  # guest_second
        c_void_p, c_size_t,  # station_first
        c_void_p, c_size_t,  # station_second
        c_void_p, c_size_t,  # bids
    ),
    'join': (
        c_void_p, c_size_t,  # asks
        c_void_p, c_size_t,  # bays
        c_void_p, c_size_t,  # amounts
        c_void_p, c_size_t,  # tickets
        c_void_p, c_size_t,  # bids
        c_size_t,  # width
        c_void_p, c_size_t,  # asks2
        c_void_p, c_size_t,  # bays2
        c_void_p, c_size_t,  # amounts2
        c_void_p, c_size_t,  # tickets2
        c_void_p, c_size_t,  # bids2
        c_size_t,  # width2
        c_void_p, c_size_t,  # joined_asks
        c_void_p, c_size_t,  # joined_bays
        c_void_p, c_size_t,  # joined_amounts
        c_void_p, c_size_t,  # joined_tickets
        c_void_p, c_size_t,  # joined_bids
    ),
    'clear': (
        c_uint8,  # rule
        c_void_p, c_size_t,  # asks
        c_void_p, c_size_t,  # bays
        c_void_p, c_size_t,  # amounts
        c_void_p, c_size_t,  # tickets
        c_void_p, c_size_t,  # bids
        c_size_t,  # width
        c_void_p, c_size_t,  # stations
        c_void_p, c_size_t,  # charges
        c_void_p, c_size_t,  # sold
        c_void_p, c_size_t,  # paid
        c_void_p,  # cut
        c_void_p,  # margin
    ),
    'clear_efficient': (
        c_uint8,  # rule
        c_void_p, c_size_t,  # asks
        c_void_p, c_size_t,  # bays
        c_void_p, c_size_t,  # amounts
        c_void_p, c_size_t,  # tickets
        c_void_p, c_size_t,  # bids
        c_size_t,  # width
        c_void_p, c_size_t,  # stations
        c_void_p, c_size_t,  # charges
        c_void_p, c_size_t,  # sold
        c_void_p, c_size_t,  # paid
        c_void_p,  # cut
        c_void_p,  # margin
    ),
    'explain': (
        c_uint8,  # rule
        c_void_p, c_size_t,  # asks
        c_void_p, c_size_t,  # bays
        c_void_p, c_size_t,  # amounts
        c_void_p, c_size_t,  # tickets
        c_void_p, c_size_t,  # bids
        c_size_t,  # width
        c_void_p, c_size_t,  # codes
        c_void_p, c_size_t,  # stations
        c_void_p, c_size_t,  # charges
        c_void_p, c_size_t,  # reasons
    ),
    'try': (
        c_uint8,  # rule
        c_void_p, c_size_t,  # asks
        c_void_p, c_size_t,  # bays
        c_void_p, c_size_t,  # amounts
        c_void_p, c_size_t,  # tickets
        c_void_p, c_size_t,  # bids
        c_size_t,  # width
        c_uint32,  # guest
        c_void_p, c_size_t,  # worths
        c_void_p, c_size_t,  # row
        c_void_p, c_size_t,  # changes
        c_void_p,  # first_gain
        c_void_p,  # second_gain
    ),
    'menu': (
        c_uint8,  # rule
        c_void_p, c_size_t,  # asks
        c_void_p, c_size_t,  # bays
        c_void_p, c_size_t,  # amounts
        c_void_p, c_size_t,  # tickets
        c_void_p, c_size_t,  # bids
        c_size_t,  # width
        c_uint32,  # guest
        c_void_p, c_size_t,  # bars
        c_void_p, c_size_t,  # prices
    ),
    'gains': (
        c_uint8,  # rule
        c_void_p, c_size_t,  # asks
        c_void_p, c_size_t,  # bays
        c_void_p, c_size_t,  # amounts
        c_void_p, c_size_t,  # tickets
        c_void_p, c_size_t,  # bids
        c_size_t,  # width
        c_uint32,  # guest
        c_void_p, c_size_t,  # worths
        c_void_p, c_size_t,  # rows
        c_void_p, c_size_t,  # gains
    ),
    'clear_marked': (
        c_uint8,  # rule
        c_void_p, c_size_t,  # asks
        c_void_p, c_size_t,  # bays
        c_void_p, c_size_t,  # amounts
        c_void_p, c_size_t,  # tickets
        c_void_p, c_size_t,  # bids
        c_size_t,  # width
        c_void_p, c_size_t,  # stations
        c_void_p, c_size_t,  # charges
        c_void_p, c_size_t,  # sold
        c_void_p, c_size_t,  # paid
        c_void_p, c_size_t,  # places
        c_void_p, c_size_t,  # floors
        c_void_p,  # cut
        c_void_p,  # margin
    ),
    'mark': (
        c_uint8,  # rule
        c_void_p, c_size_t,  # asks
        c_void_p, c_size_t,  # bays
        c_void_p, c_size_t,  # amounts
        c_void_p, c_size_t,  # tickets
        c_void_p, c_size_t,  # bids
        c_size_t,  # width
        c_void_p, c_size_t,  # stations
        c_void_p, c_size_t,  # charges
        c_void_p, c_size_t,  # sold
        c_void_p, c_size_t,  # paid
        c_void_p, c_size_t,  # places
        c_void_p, c_size_t,  # floors
        c_uint32,  # cut
        c_uint64,  # margin
        c_void_p,  # correct
    ),
    'post': (
        c_uint8,  # rule
        c_void_p, c_size_t,  # asks
        c_void_p, c_size_t,  # bays
        c_void_p, c_size_t,  # amounts
        c_void_p, c_size_t,  # tickets
        c_void_p, c_size_t,  # bids
        c_size_t,  # width
        c_uint8,  # desk
        c_uint32,  # round
        c_void_p, c_size_t,  # guests
        c_void_p, c_size_t,  # stations
        c_void_p,  # house
        c_void_p, c_size_t,  # last
    ),
}
