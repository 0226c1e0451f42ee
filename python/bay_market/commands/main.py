"""The command from its first word to its exit status: 0 done, 1 refused, 2 wrong use or no such file, 3 input or output
failed. There is never a traceback."""
from __future__ import annotations

import io
import os
import signal
import sys
from importlib import import_module
from typing import NoReturn, Optional, Sequence

from .files import InFile
from .output import Failed, err
from .parser import parsed


def run(words: Sequence[str]) -> int:
    """Runs a command and gives its exit status.

    >>> from tempfile import NamedTemporaryFile
    >>> with NamedTemporaryFile() as file:
    ...     size = file.write(b'2\\r\\n1\\r\\n')
    ...     file.flush()
    ...     run(['clear', file.name])
    cut 2
    station 1 sold 0 paid 0
    margin 0
    0
    """
    try:
        command, args = parsed(words)
        try:
            group = import_module(f'.{command.group}', __package__)
            status: int = getattr(group, f'do_{command.name.replace(" ", "_")}')(args)
            return status
        except InFile as wrong:
            from .refusing import refuse
            refuse(wrong, getattr(args, 'json', False))
            return 1
    except Failed as failed:
        err(str(failed))
        return failed.status


def main(words: Optional[Sequence[str]] = None) -> NoReturn:
    """Runs the command, with the words of the command line where none are given, and ends the process."""
    if signal.getsignal(signal.SIGINT) is signal.default_int_handler:
        signal.signal(signal.SIGINT, signal.SIG_DFL)    # Ctrl-C ends us by the signal, so that a shell's loop stops too
    for stream in (sys.stdout, sys.stderr):
        if isinstance(stream, io.TextIOWrapper):
            stream.reconfigure(encoding='utf-8', errors='surrogateescape', newline='\n')
    if words is None:
        words = [os.fsencode(word).decode('utf-8', 'surrogateescape') for word in sys.argv[1:]]
    os._exit(_ended(words))                             # with no second try to flush what is closed


def _ended(words: Sequence[str]) -> int:
    try:
        status = _run(words)
        if sys.stdout is not None:
            sys.stdout.flush()
        return status
    except BrokenPipeError:
        return 3                                        # whoever read us has gone: nothing to say
    except OSError as error:
        err(f'cannot write standard output: {error.strerror}')
        return 3


def _run(words: Sequence[str]) -> int:
    """As `run`; what nobody thought of is a line too."""
    from .._library import NoLibrary
    try:
        return run(words)
    except SystemExit as end:                           # argparse's, after its help
        return end.code if isinstance(end.code, int) else 0
    except NoLibrary as error:
        err(str(error))
        return 3
    except OSError:
        raise
    except Exception as error:
        last = error.__traceback__
        while last is not None and last.tb_next is not None:
            last = last.tb_next
        place = f'{os.path.basename(last.tb_frame.f_code.co_filename)}:{last.tb_lineno}' if last else 'bay'
        err(f'a fault of bay itself, at {place}: {type(error).__name__}: {error}')
        return 3
