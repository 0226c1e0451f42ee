"""Ctrl-C in commands that have something to do before they end by it."""
from __future__ import annotations

import os
import signal
import sys
from contextlib import contextmanager
from typing import Iterator, NoReturn

from .output import err


@contextmanager
def ctrl_c_raises() -> Iterator[None]:
    """Ctrl-C is a KeyboardInterrupt, but where it is ignored, as in the background of a shell."""
    before = signal.getsignal(signal.SIGINT)
    if before is signal.SIG_DFL:
        signal.signal(signal.SIGINT, signal.default_int_handler)
    try:
        yield
    finally:
        signal.signal(signal.SIGINT, before)


def end_by_ctrl_c(message: str) -> NoReturn:
    """Ends by the signal, so that a shell's loop stops too."""
    err(message)
    sys.stdout.flush()
    signal.signal(signal.SIGINT, signal.SIG_DFL)
    os.kill(os.getpid(), signal.SIGINT)
    raise KeyboardInterrupt
