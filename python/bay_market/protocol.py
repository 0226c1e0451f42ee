"""The lines between the course and a bidder: words and whole numbers with blanks between them, so that scanf and split
read them.

    hello 1 rounds 100 stations 5 round truthful rule 1
    round 17 kwh 6 ticket 12 worths 0 5 0 4 2
                                                        bids 17 0 5 0 4 2
    result 17 station 2 charge 18 gain 12 cut 3

The bidder answers each `round` line with one line, and no other. The answer repeats the number of the round, so that a
late one is not taken for the next round's. Station 0 is no seat. Standard input ends after the last result."""
from __future__ import annotations

import re
from typing import List, NamedTuple, Optional, Sequence

from ._c import MAX_PRICE
from .submission import in_ascii

FORM = 1
OK, LATE, WRONG, OUT = 'ok', 'late', 'wrong', 'out'


class Answer(NamedTuple):
    """What came of a question: ok with a row of bids; late; wrong with what was said; out where nobody was asked."""
    state: str
    row: Optional[List[int]] = None
    said: str = ''


def hello(rounds: int, stations: int, quiet: bool, rule: int) -> str:
    """The first line.

    >>> hello(100, 5, False, 1)
    'hello 1 rounds 100 stations 5 round truthful rule 1'
    """
    return f'hello {FORM} rounds {rounds} stations {stations} round {"quiet" if quiet else "truthful"} rule {rule}'


def question(number: int, amount: int, ticket: int, worths: Sequence[int]) -> str:
    """The line of a round.

    >>> question(17, 6, 12, [0, 5, 0, 4, 2])
    'round 17 kwh 6 ticket 12 worths 0 5 0 4 2'
    """
    return f'round {number} kwh {amount} ticket {ticket} worths ' + ' '.join(map(str, worths))


def result(number: int, station: int, charge: int, gain: int, cut: int) -> str:
    """The line after a round.

    >>> result(17, 2, 18, 12, 3)
    'result 17 station 2 charge 18 gain 12 cut 3'
    """
    return f'result {number} station {station} charge {charge} gain {gain} cut {cut}'


def understood(line: bytes, number: int, stations: int) -> Optional[Answer]:
    """The answer of a line to a round; None where it is one to an earlier round, which came too late.

    >>> understood(b'bids 17 0 5', 17, 2), understood(b'bids 16 0 5', 17, 2)
    (Answer(state='ok', row=[0, 5], said=''), None)
    >>> understood(b'bids 17 0 5.5', 17, 2).said
    'bid 2 is "5.5", not a whole number of 0 to 1000000'
    """
    text = line.decode('utf-8', 'replace').strip()
    words = text.split()
    if len(words) < 2 or words[0] != 'bids' or not re.fullmatch('[0-9]{1,10}', words[1]):
        return Answer(WRONG, None, f'"{in_ascii(text, 60)}" is not "bids {number}" and {stations} numbers')
    if int(words[1]) < number:
        return None
    if int(words[1]) > number:
        return Answer(WRONG, None, f'"{in_ascii(text, 60)}" is for round {int(words[1])}')
    if len(words) - 2 != stations:
        return Answer(WRONG, None, f'{len(words) - 2} bids, wanted {stations}')
    for k, word in enumerate(words[2:], 1):
        if not re.fullmatch('[0-9]{1,7}', word) or int(word) > MAX_PRICE:
            return Answer(WRONG, None, f'bid {k} is "{in_ascii(word, 20)}", not a whole number of 0 to {MAX_PRICE}')
    return Answer(OK, [int(word) for word in words[2:]])
