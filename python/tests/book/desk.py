"""A desk: posts rounds to a book until its last, with a line for each answer. It may be killed at any moment and
started again, and goes on with the first round that was not answered.

python3 -m tests.book.desk PLACE DESK FIRST LAST [stubborn]

A stubborn desk opens the book again where it fails, and posts the same round again."""
import random
import sys
import time

from bay_market import Market
from bay_market.store import Book, BookError


def market_of(desk, round_):
    """The market of a desk's round, the same in every process."""
    rng = random.Random(f'{desk} {round_}')
    n, m = rng.randint(1, 24), rng.randint(1, 8)
    return Market([rng.randrange(90, 450) for _ in range(m)], [rng.randint(1, 3) for _ in range(m)],
                  [rng.randint(5, 80) for _ in range(n)], rng.sample(range(1000), n),
                  [rng.choice((0, rng.randrange(600))) for _ in range(n * m)])


def rule_of(desk):
    return 1 + desk % 2


def run(book, desk, rounds):
    """Posts rounds, and takes those away that were answered."""
    while rounds:
        posted = book.post(market_of(desk, rounds[0]), rounds[0], desk, rule_of(desk), again=True)
        print('posted' if posted.before is None else 'again', posted.round, posted.entry, flush=True)
        del rounds[0]


def main(place, desk, first, last, stubborn=''):
    rounds = list(range(int(first), int(last) + 1))
    while rounds:
        try:
            with Book.open(place, wait=60) as book:
                run(book, int(desk), rounds)
        except BookError as error:
            print('failed', rounds[0], int(error.known), error, flush=True)
            if not stubborn:
                return
            time.sleep(0.1)


if __name__ == '__main__':
    main(*sys.argv[1:])
