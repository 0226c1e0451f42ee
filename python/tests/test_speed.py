"""A clearing of 20 by 6 with Engine, against a bare ctypes call whose arguments are wrapped once."""
import ctypes
import random
import time
import unittest

from bay_market import Engine
from bay_market._library import unconverted
from tests import draw

MOST = 1.3
CLEARINGS, TURNS = 20_000, 9


def spent(call):
    """Processor time of so many calls."""
    start = time.process_time()
    for _ in range(CLEARINGS):
        call()
    return time.process_time() - start


class Speed(unittest.TestCase):
    def test_engine(self):
        engine = Engine(draw.market(random.Random(1), 20, 6))
        function, arguments = unconverted('clear'), (ctypes.c_uint8(1), *engine._lent)

        def bare():
            start = time.process_time()
            for _ in range(CLEARINGS):
                function(*arguments)
            return time.process_time() - start
        times = [(bare(), spent(engine.clear)) for _ in range(TURNS)]
        least = [min(turn[k] for turn in times) for k in (0, 1)]
        print(f'Engine: {CLEARINGS / least[1]:,.0f} clearings of 20 by 6 a second, {least[1] / least[0]:.2f} of the '
              'time of a bare call')
        self.assertLessEqual(least[1], MOST * least[0])


if __name__ == '__main__':
    unittest.main()
