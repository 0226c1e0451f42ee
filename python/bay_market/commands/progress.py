"""How far a long command is, on standard error where that is a terminal."""
from __future__ import annotations

import sys
import time

WIDTH, AFTER, EVERY = 24, 1.0, 0.2      # signs of the bar; seconds before it is shown and between two times


def bar(what: str, unit: str, done: int, all_: int, spent: float) -> str:
    """The line.

    >>> bar('verifying', 'postings', 30000, 120000, 2.0)
    'verifying [######..................] 25%  30,000 of 120,000 postings, 15,000 a second, 6 s left'
    """
    full = WIDTH * done // all_ if all_ else WIDTH
    rate = done / spent if spent else 0.0
    left = f', {(all_ - done) / rate:.0f} s left' if rate else ''
    return (f'{what} [{"#" * full}{"." * (WIDTH - full)}] {100 * done // all_ if all_ else 100}%  {done:,} of {all_:,} '
            f'{unit}, {rate:,.0f} a second{left}')


class Progress:
    """Is called with how many are done, how many there are, and what else is to be told; shows nothing for the first
    second.

    >>> progress = Progress('verifying', 'postings')
    >>> progress(256, 1000); progress.end()
    """

    def __init__(self, what: str, unit: str) -> None:
        self._what, self._unit = what, unit
        self._start, self._shown = time.monotonic(), 0.0
        self._terminal = sys.stderr is not None and sys.stderr.isatty()

    def __call__(self, done: int, all_: int, more: str = '') -> None:
        if not self._terminal:
            return
        now = time.monotonic()
        if now - self._start >= AFTER and now - self._shown >= EVERY:
            self._shown = now
            self._write('\r\x1b[K' + bar(self._what, self._unit, done, all_, now - self._start) + more)

    def end(self) -> None:
        """Takes the line away.

        >>> Progress('verifying', 'postings').end()
        """
        if self._shown:
            self._write('\r\x1b[K')

    def _write(self, text: str) -> None:
        try:
            sys.stderr.write(text)
            sys.stderr.flush()
        except (OSError, ValueError):
            self._terminal = False      # nobody to tell
