"""What is lent to the library: lists and numbers, as it wants them and where they lie."""
from __future__ import annotations

import ctypes
import operator
from array import array
from typing import Any, Iterable, List, Mapping, Set, Tuple

# the items of each list, as `array` and `memoryview` name them
FORMS = {'asks': 'I', 'bays': 'H', 'amounts': 'H', 'tickets': 'I', 'bids': 'I', 'prices': 'I', 'falls': 'I',
         'guests': 'H', 'stations': 'H', 'worths': 'I', 'row': 'I', 'rows': 'I', 'charges': 'I', 'sold': 'I',
         'paid': 'Q', 'places': 'B', 'floors': 'I', 'last': 'I'}
SIZES = {'B': 1, 'H': 2, 'I': 4, 'Q': 8}


class _Buffer(ctypes.Structure):
    """Python's Py_buffer."""
    _fields_ = [('buf', ctypes.c_void_p), ('obj', ctypes.py_object), ('len', ctypes.c_ssize_t),
                ('itemsize', ctypes.c_ssize_t), ('readonly', ctypes.c_int), ('ndim', ctypes.c_int),
                ('format', ctypes.c_char_p), ('shape', ctypes.c_void_p), ('strides', ctypes.c_void_p),
                ('suboffsets', ctypes.c_void_p), ('internal', ctypes.c_void_p)]


def address(view: memoryview) -> int:
    """Where the bytes of a contiguous view lie. They stay there while the view is held.

    >>> numbers = array('I', [1, 2])
    >>> address(memoryview(numbers)) == numbers.buffer_info()[0]
    True
    """
    held = _Buffer()
    ctypes.pythonapi.PyObject_GetBuffer(ctypes.py_object(view), ctypes.byref(held), 0)
    try:
        return held.buf or 0
    finally:
        ctypes.pythonapi.PyBuffer_Release(ctypes.byref(held))


def lent(*lists: Any) -> List[int]:
    """Pointer and length of each list, an array or a view.

    >>> lent(array('I'), array('H', [1]))[1::2]
    [0, 1]
    """
    out = []
    for numbers in lists:
        view = memoryview(numbers)
        out += [address(view), len(view)]
    return out


def lend(name: str, values: Any, form: str = '') -> memoryview:
    """The values of a list in the library's form, that of its name where none is given. What has the buffer protocol is
    lent as it is, any other list is copied once.

    >>> lend('asks', [1, 2]).tolist()
    [1, 2]
    >>> lend('bays', [1, 70000])
    Traceback (most recent call last):
    ValueError: bays: element 2 is 70000, not a whole number of 0 to 65535
    """
    form = form or FORMS[name]
    try:
        view = memoryview(values)
    except TypeError:
        return memoryview(_copied(name, form, values))
    if view.format.lstrip('@=<') not in _same(form) or view.itemsize != SIZES[form] or not view.c_contiguous:
        parted = '' if view.c_contiguous else ', not contiguous'
        raise ValueError(f'{name}: items of form {view.format!r} and {view.itemsize} bytes{parted}; wanted whole '
                         f'numbers of {SIZES[form]} bytes without sign, one after the other: array({form!r}) or '
                         f"numpy's uint{8 * SIZES[form]}")
    return view if view.ndim == 1 and view.format == form else view.cast('B').cast(form)


def _same(form: str) -> Tuple[str, ...]:
    """The forms with the same items, whatever the sizes of this machine."""
    return ('I', 'L', 'Q') if SIZES[form] > 2 else (form,)


def _copied(name: str, form: str, values: Any) -> 'array[int]':
    if isinstance(values, (str, Set, Mapping)) or not isinstance(values, Iterable):
        raise ValueError(f'{name}: {values!r:.60} is no list of whole numbers')
    items = list(values)
    try:
        return array(form, items)
    except (OverflowError, TypeError):
        top = 256 ** SIZES[form] - 1
        for element, value in enumerate(items, 1):
            if not fits(value, top):
                raise ValueError(f'{name}: element {element} is {value!r:.60}, not a whole number of 0 to {top}') \
                    from None
        raise


def fits(value: Any, top: int) -> bool:
    """Whether a value is a whole number of 0 to top.

    >>> fits(65535, 65535), fits(65536, 65535), fits(1.0, 65535)
    (True, False, False)
    """
    try:
        return 0 <= operator.index(value) <= top
    except TypeError:
        return False


def number(value: Any, top: int, instead: int) -> int:
    """A number as it is lent. ctypes cuts what is above top without a word, so that is never lent: a number that the
    engine refuses is, in its place.

    >>> number(2, 255, instead=0), number(257, 255, instead=0)
    (2, 0)
    """
    return operator.index(value) if fits(value, top) else instead


def rows(name: str, table: Any) -> Tuple[Any, int]:
    """A table row after row, and the width of its rows: 0 where it is no table of rows.

    >>> rows('bids', [[8, 0], [9, 1]]), rows('bids', [8, 0])
    (([8, 0, 9, 1], 2), ([8, 0], 0))
    >>> rows('bids', [[8, 0], [9]])
    Traceback (most recent call last):
    ValueError: bids: row 2 has 1 numbers, row 1 has 2
    """
    if getattr(table, 'ndim', 1) == 2:
        return table, int(table.shape[1])
    if not isinstance(table, (list, tuple)) or not table or not _is_row(table[0]):
        return table, 0
    width = len(table[0])
    for line, row in enumerate(table, 1):
        if not _is_row(row):
            raise ValueError(f'{name}: row {line} is {row!r:.60}, and no row')
        if len(row) != width:
            raise ValueError(f'{name}: row {line} has {len(row)} numbers, row 1 has {width}')
    return [value for row in table for value in row], width


def _is_row(value: Any) -> bool:
    return hasattr(value, '__len__') and not isinstance(value, (str, bytes))
