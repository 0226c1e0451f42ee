"""What is read and what is written. A file's name is the UTF-8 of its bytes, with what is no UTF-8 escaped."""
from __future__ import annotations

import os
import signal
import stat
import sys
from typing import Callable, Optional, Tuple, TypeVar

from ..market import Market, is_sheet
from ..refusal import Refused
from .output import Failed

READ = 1 << 20          # whatever is longer is refused by its beginning
STDIN = 'standard input'
Answer = TypeVar('Answer')


class InFile(Exception):
    """A refusal with the file that it is about, and that file's bytes."""

    def __init__(self, refused: Refused, name: str = '', data: bytes = b'') -> None:
        super().__init__(str(refused))
        self.refused, self.name, self.data = refused, name, data
        self.text = bool(data) and not is_sheet(data)


def path(name: str) -> bytes:
    """The bytes of a file's name.

    >>> path('a.csv')
    b'a.csv'
    """
    if '\0' in name or not name:
        raise Failed(2, f'no such file: {name}')
    return name.encode('utf-8', 'surrogateescape')


def read(name: Optional[str], most: int = READ) -> Tuple[str, bytes]:
    """The name to show and the bytes, at most so many, of a file or of standard input (None or -)."""
    if name is None and sys.stdin is not None and sys.stdin.isatty():
        raise Failed(2, 'no FILE, and standard input is a terminal (bay --help)')
    if name is None or name == '-':
        try:
            return STDIN, sys.stdin.buffer.read(most)
        except (OSError, AttributeError, ValueError) as error:
            reason = getattr(error, 'strerror', None) or 'it is closed'
            raise Failed(3, f'cannot read standard input: {reason}') from None
    try:
        with open(path(name), 'rb') as file:
            return name, file.read(most)
    except (FileNotFoundError, NotADirectoryError):
        raise Failed(2, f'no such file: {name}') from None
    except IsADirectoryError:
        raise Failed(2, f'a folder, not a file: {name}') from None
    except OSError as error:
        raise Failed(3, f'cannot read {name}: {error.strerror}') from None


def in_file(name: str, data: bytes, action: Callable[[], Answer]) -> Answer:
    """What the action answers; its refusal becomes one of this file."""
    try:
        return action()
    except Refused as refused:
        raise InFile(refused, name, data) from None


def load(name: Optional[str]) -> Tuple[str, bytes, Market]:
    """The name to show, the bytes and the market of a file."""
    known, data = read(name)
    return known, data, in_file(known, data, lambda: Market.from_bytes(data))


def is_csv(name: str) -> bool:
    """Whether a file is to be written as comma-separated text.

    >>> is_csv('market.CSV'), is_csv('market.sheet')
    (True, False)
    """
    return name.lower().endswith('.csv')


def in_form(market: Market, csv: bool) -> bytes:
    """An accepted market as comma-separated text or as a sheet.

    >>> in_form(Market([2], [1], [], [], []), csv=True).split()
    [b'2', b'1']
    """
    sheet = market.to_sheet()                   # refuses what would not clear, in either form
    return market.to_csv() if csv else sheet


def write(name: str, data: bytes) -> None:
    """Writes a file whole or not at all; - is standard output."""
    if name == '-':
        _print(data)
        return
    try:
        target = path(name)
        mode = os.stat(target).st_mode if os.path.exists(target) else None
        if mode is not None and stat.S_ISDIR(mode):
            raise Failed(2, f'a folder, not a file: {name}')
        if mode is not None and not stat.S_ISREG(mode):          # a device or a pipe is written as it is
            with open(target, 'wb') as file:
                file.write(data)
        else:
            _replace(os.path.realpath(target), data, None if mode is None else stat.S_IMODE(mode))
    except BrokenPipeError:
        raise Failed(3, f'cannot write {name}: nobody reads it') from None
    except (FileNotFoundError, NotADirectoryError):
        raise Failed(2, f'no such folder: {os.path.dirname(name)}') from None
    except OSError as error:
        raise Failed(3, f'cannot write {name}: {error.strerror}') from None


def _print(data: bytes) -> None:
    if sys.stdout is None:
        raise Failed(3, 'cannot write standard output: it is closed')
    if sys.stdout.isatty() and b'\0' in data:
        raise Failed(2, 'a sheet is bytes and not for a terminal: give it a file name')
    sys.stdout.flush()
    sys.stdout.buffer.write(data)
    sys.stdout.buffer.flush()


def _replace(target: bytes, data: bytes, mode: Optional[int]) -> None:
    """Writes beside the file, syncs and renames. Ctrl-C waits for that, so that no part is left behind."""
    folder = os.path.dirname(target)
    part = os.path.join(folder, b'.bay-%d.part' % os.getpid())
    before = signal.pthread_sigmask(signal.SIG_BLOCK, {signal.SIGINT})
    try:
        with open(os.open(part, os.O_WRONLY | os.O_CREAT | os.O_EXCL, 0o666), 'wb') as file:
            try:
                if mode is not None:
                    os.fchmod(file.fileno(), mode)
                file.write(data)
                file.flush()
                os.fsync(file.fileno())
                os.replace(part, target)
            except OSError:
                os.unlink(part)
                raise
        _sync(folder)
    finally:
        signal.pthread_sigmask(signal.SIG_SETMASK, before)


def _sync(folder: bytes) -> None:
    """Syncs a folder, where its disk knows how."""
    try:
        number = os.open(folder or b'.', os.O_RDONLY | os.O_DIRECTORY)
    except OSError:
        return
    try:
        os.fsync(number)
    except OSError:
        pass
    finally:
        os.close(number)
