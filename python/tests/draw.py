"""Random markets, and texts and sheets of them, for the tests. A seed gives the same ones again."""
import random

from bay_market import Market

LISTS = ('asks', 'bays', 'amounts', 'tickets', 'bids')


def lists(rng: random.Random, n: int = -1, m: int = -1) -> dict:
    """The lists of an accepted market; sizes that are not given are mostly small."""
    n = rng.choice((0, 1, 2, 3, 5, 9, 9, rng.randint(0, 40))) if n < 0 else n
    m = rng.choice((1, 2, 3, 5, 8, rng.randint(1, 40))) if m < 0 else m
    top = rng.choice((3, 12, 1000, 1_000_000))
    most = rng.choice((1, 4, 1000))
    first = rng.choice((0, 1, 2 ** 16, 2 ** 32 - 1 - 4 * n))
    return {'asks': [rng.randint(0, top) for _ in range(m)],
            'bays': [rng.randint(1, rng.choice((1, 3, 200))) for _ in range(m)],
            'amounts': [rng.randint(1, most) for _ in range(n)],
            'tickets': rng.sample(range(first, first + 4 * n + 1), n),
            'bids': [rng.choice((0, rng.randint(0, top), top)) for _ in range(n * m)]}


def market(rng: random.Random, n: int = -1, m: int = -1) -> Market:
    return Market(**lists(rng, n, m))


def row(rng: random.Random, m: int) -> list:
    """A row of bids or worths."""
    top = rng.choice((3, 12, 1000, 1_000_000))
    return [rng.choice((0, rng.randint(0, top), top)) for _ in range(m)]


def text_of(held: Market, rng: random.Random) -> bytes:
    """A comma-separated text of a market, where a bid of 0 is empty or not and zeros may stand in front."""
    def written(value: int, may_be_empty: bool) -> str:
        if may_be_empty and not value and rng.random() < 0.7:
            return ''
        digits = str(value)
        return digits.zfill(rng.randint(len(digits), 10)) if rng.random() < 0.1 else digits
    out = [[written(value, False) for value in numbers] for numbers in (held.asks, held.bays)]
    for guest in range(1, held.n + 1):
        out.append([written(held.tickets[guest - 1], False), written(held.amounts[guest - 1], False),
                    *(written(bid, True) for bid in held.row(guest))])
    return ''.join(','.join(line) + '\r\n' for line in out).encode()


def changed(data: bytes, rng: random.Random, alphabet: bytes) -> bytes:
    """The bytes with one to three of them changed, left out or put in, or cut short."""
    out = bytearray(data)
    for _ in range(rng.randint(1, 3)):
        at = rng.randint(0, len(out))
        kind = rng.randrange(4)
        if kind == 0:
            out[at:at] = bytes([rng.choice(alphabet)])
        elif kind == 1:
            del out[at:at + 1]
        elif kind == 2:
            out[at:at + 1] = bytes([rng.choice(alphabet)])
        elif rng.random() < 0.3:
            del out[at:]
    return bytes(out)
