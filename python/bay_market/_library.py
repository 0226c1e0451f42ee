"""Finding and loading the library. It is loaded at the first call, so that help and messages work without it."""
from __future__ import annotations

import ctypes
import os
from functools import lru_cache
from typing import Any, List

from . import _c

NAME, PREFIX = 'libbay_market.so', 'bay_market_'


class NoLibrary(OSError):
    """There is no library for this machine, or it is not of this version."""


def machine() -> str:
    """The machine, as the folders of prebuilt/ are named.

    >>> machine() == f'{os.uname().machine}-linux'
    True
    """
    this = os.uname()
    return f'{this.machine}-{this.sysname.lower()}'


def places() -> List[str]:
    """Where the library is looked for: BAY_MARKET_LIBRARY alone where that is set, else beside this file, as a wheel
    has it, and in prebuilt/ of a checkout.

    >>> all(place.endswith('libbay_market.so') for place in places())
    True
    """
    named = os.environ.get('BAY_MARKET_LIBRARY')
    if named:
        return [named]
    here = os.path.dirname(os.path.realpath(__file__))
    root = os.path.dirname(os.path.dirname(here))
    return [os.path.join(here, NAME), os.path.join(root, 'prebuilt', machine(), NAME)]


def _open() -> ctypes.CDLL:
    looked = places()
    path = next((place for place in looked if os.path.exists(place)), None)
    if path is None:
        raise NoLibrary(f'no {NAME} for this machine ({machine()}): looked for {" and ".join(looked)}')
    try:
        return ctypes.CDLL(os.path.abspath(path))       # a name with no folder would be looked for elsewhere
    except OSError as error:
        raise NoLibrary(f'cannot load {path} on this machine ({machine()}): {error}') from None


def _hold_to_version(opened: ctypes.CDLL) -> None:
    """Refuses a library that does not serve callers of this package's version: one that does has a function named after
    that version."""
    if hasattr(opened, PREFIX + _c.VERSION.replace('.', '_')):
        return
    of = 'names no version, so that it is older than 1.0.0 or another library'
    if hasattr(opened, PREFIX + 'version'):
        number = opened.bay_market_version()
        of = f'is of version {number // 1000000}.{number // 1000 % 1000}.{number % 1000}'
    package = os.path.dirname(os.path.realpath(__file__))
    raise NoLibrary(f'{opened._name} {of}; {package} is of version {_c.VERSION}')


@lru_cache(maxsize=None)
def _loaded() -> ctypes.CDLL:
    """The library with the types of all its functions."""
    opened = _open()
    _hold_to_version(opened)
    for name, types in _c.SIGNATURES.items():
        function = getattr(opened, PREFIX + name)
        function.argtypes, function.restype = types, ctypes.c_uint8
    return opened


class _Library:
    """The functions of the library, by their names without bay_market_."""

    def __getattr__(self, name: str) -> Any:
        function = getattr(_loaded(), PREFIX + name)
        setattr(self, name, function)
        return function


lib: Any = _Library()


def unconverted(name: str) -> Any:
    """A function for arguments that are ctypes' own already, which are not converted again at each call.

    >>> unconverted('clear').argtypes is None
    True
    """
    function = _loaded()[PREFIX + name]
    function.restype = ctypes.c_uint8
    return function
