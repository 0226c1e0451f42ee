"""How often each number comes among many of which few are different, as the gains of rows are: one for each station at
most, and none. To look at each as an int would cost more than all the rest of a search."""
from __future__ import annotations

from array import array
from collections import Counter
from typing import Dict


def counted(numbers: array[int]) -> Dict[int, int]:
    """How often each comes of many numbers of eight bytes, as an array('q') has them.

    >>> counted(array('q', [7, -7, 7])), counted(array('q', [7, 263, 263]))
    ({7: 2, -7: 1}, {7: 1, 263: 2})
    """
    data = numbers.tobytes()
    low = data[::8]
    found, rest, tables = {}, low, [bytearray(256) for _ in range(8)]
    while rest:
        byte, first = rest[:1], low.index(rest[:1])
        others = rest.translate(None, byte)
        found[numbers[first]] = len(rest) - len(others)
        for table, held in zip(tables, data[8 * first:8 * first + 8]):
            table[byte[0]] = held
        rest = others
    if all(low.translate(table) == data[k::8] for k, table in enumerate(tables)):
        return found                    # the lowest byte of each tells the others
    return dict(Counter(numbers))
