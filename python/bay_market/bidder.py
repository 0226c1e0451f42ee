"""A bidder: a program that is started once and answers lines (protocol.py). It may be late, wrong, dead, flooding or
greedy, and is told of as what it is; nothing that it does stops whoever asks it.

It runs with the rights of whoever runs the course, under a keeper (keeper.py), which ends it with all that it has
started: that is no sandbox."""
from __future__ import annotations

import os
import re
import selectors
import shlex
import shutil
import socket
import subprocess
import sys
import tempfile
import time
from hashlib import sha256
from typing import Dict, List, NamedTuple, Optional

from . import keeper
from .protocol import LATE, OUT, Answer, understood
from .submission import in_ascii

LINE = 65536            # bytes of the longest line that is looked at
FIRST = 10.0            # seconds for the first answer: programs have to start
PATIENCE = 3            # late answers in a row after which it is out
KEPT = ('PATH', 'HOME', 'LANG', 'LC_ALL', 'TMPDIR')
LOST = 'its keeper was killed'


class NoProgram(Exception):
    """There is no such program."""


class Left(NamedTuple):
    """Why and in which round a bidder is out, and the last line of its standard error."""
    number: int
    why: str
    words: str


class Program(NamedTuple):
    """A bidder's name and its command line."""
    name: str
    words: List[str]

    @property
    def file(self) -> Optional[str]:
        """The program itself: the last word that is a file.

        >>> Program('a', ['/bin/sh', '-c', 'true']).file
        '/bin/sh'
        """
        return next((word for word in reversed(self.words) if os.path.isfile(word)), None)

    def digest(self) -> str:
        """SHA-256 of the program; nothing where it cannot be read.

        >>> Program('a', ['/dev/null']).digest()
        ''
        """
        try:
            with open(self.file or '', 'rb') as file:
                return sha256(file.read()).hexdigest()
        except OSError:
            return ''


def program_of(word: str, taken: Dict[str, int]) -> Program:
    """A bidder of the command line: a program, a .py file, or NAME=COMMAND with its words. A name that was taken gets a
    number.

    >>> program_of('quiet=sh -c true', {'quiet': 1})
    Program(name='quiet.2', words=['sh', '-c', 'true'])
    >>> program_of('/no/such', {})
    Traceback (most recent call last):
    bay_market.bidder.NoProgram: no such program: /no/such
    """
    match = re.fullmatch(r'([A-Za-z0-9_.-]+)=(.+)', word, re.S)
    try:
        words = shlex.split(match.group(2)) if match else [word]
    except ValueError as error:
        raise NoProgram(f'{word}: {error}') from None
    if not words or not words[0] or '\0' in word:
        raise NoProgram(f'no such program: {word}')
    if words[0].endswith('.py') and os.path.isfile(words[0]) and not os.access(words[0], os.X_OK):
        words.insert(0, sys.executable)
    elif os.path.isfile(words[0]):
        words[0] = os.path.join(os.curdir, words[0])        # in this folder, and not in PATH
    if shutil.which(words[0]) is None:
        there = os.path.exists(words[0])
        raise NoProgram(f'not a program that may be run: {words[0]}' if there else f'no such program: {words[0]}')
    name = match.group(1) if match else in_ascii(os.path.splitext(os.path.basename(word))[0])
    taken[name] = taken.get(name, 0) + 1
    return Program(name if taken[name] == 1 else f'{name}.{taken[name]}', words)


class Bidder:
    """A running program; `left` is there once it is out."""

    def __init__(self, program: Program, memory: int = 2048) -> None:
        self.name, self.program = program.name, program
        self.left: Optional[Left] = None
        self._errors = tempfile.TemporaryFile()
        self._rest, self._late = b'', 0
        self._told, theirs = socket.socketpair()
        self._keeper: Optional[subprocess.Popen[bytes]] = None
        words = [sys.executable, '-I', '-S', keeper.__file__, str(theirs.fileno()), str(memory << 20), *program.words]
        try:
            self._keeper = subprocess.Popen(
                words, stdin=subprocess.PIPE, stdout=subprocess.PIPE, stderr=self._errors, bufsize=0,
                start_new_session=True, pass_fds=[theirs.fileno()], env=environment())
        except (OSError, ValueError) as error:
            self._put_out(1, f'cannot be started: {getattr(error, "strerror", None) or error}')
            return
        finally:
            theirs.close()
        for pipe in (self._keeper.stdin, self._keeper.stdout):
            os.set_blocking(pipe.fileno(), False)           # type: ignore[union-attr]

    def __enter__(self) -> Bidder:
        return self

    def __exit__(self, *_: object) -> None:
        self._stop(patience=0.5)
        self._told.close()
        self._errors.close()

    def say(self, line: str, number: int) -> None:
        """Writes a line. Whoever has ended is found out where its answer is waited for.

        >>> with Bidder(Program('echo', ['sh', '-c', 'read line; echo bids 1 ${#line}'])) as bidder:
        ...     bidder.say('twelve signs', 1)
        ...     bidder.answer(1, 1, limit=60).row
        [12]
        """
        if self.left or self._keeper is None or self._keeper.stdin is None:
            return
        try:
            os.write(self._keeper.stdin.fileno(), line.encode() + b'\n')      # at once, or not at all: it is short
        except BlockingIOError:
            self._put_out(number, 'does not read its input')
        except OSError:
            pass

    def answer(self, number: int, stations: int, limit: float) -> Answer:
        """The answer to a round, if it comes in so many seconds.

        >>> with Bidder(Program('short', ['sh', '-c', 'echo bids 1 7; exit 3'])) as bidder:
        ...     bidder.answer(1, 1, limit=60), bidder.answer(2, 1, limit=60), bidder.left.why
        (Answer(state='ok', row=[7], said=''), Answer(state='out', row=None, said=''), 'ended with status 3')
        """
        end = time.monotonic() + limit
        while not self.left and self._keeper is not None and self._keeper.stdout is not None:
            found = self._next(number, stations)
            if found:
                self._late = 0
                return found
            data = _read(self._keeper.stdout.fileno(), end)
            if data is None:
                return self._is_late(number)
            self._rest += data
            if not data:
                self._put_out(number, self._ending(patience=1) or 'closed its output')
            elif len(self._rest) > LINE and b'\n' not in self._rest:
                self._put_out(number, f'a line longer than {LINE:,} bytes')
        return Answer(OUT)

    def _next(self, number: int, stations: int) -> Optional[Answer]:
        """The first answer to this round among the lines that have come."""
        while b'\n' in self._rest:
            line, self._rest = self._rest.split(b'\n', 1)
            found = understood(line[:LINE], number, stations)
            if found:
                return found
        return None

    def _is_late(self, number: int) -> Answer:
        self._late += 1
        if self._late == PATIENCE:
            self._put_out(number, f'{PATIENCE} answers in a row were late (is each one flushed?)')
        return Answer(LATE)

    def _put_out(self, number: int, why: str) -> None:
        """It is not asked any more."""
        if not self.left:
            self._stop(patience=0)
            self.left = Left(number, why, self._last_words())

    def _last_words(self) -> str:
        size = self._errors.seek(0, os.SEEK_END)
        self._errors.seek(max(0, size - 4096))
        said = self._errors.read().decode('utf-8', 'replace').strip().splitlines()
        return in_ascii(said[-1], 200) if said else ''

    def _ending(self, patience: float) -> str:
        """How it ended, as its keeper tells; nothing where it has not."""
        said = _read(self._told.fileno(), time.monotonic() + patience)
        return '' if said is None else in_ascii(said.decode('ascii', 'replace').partition('\n')[0], 200) or LOST

    def _stop(self, patience: float) -> None:
        """Ends it, and whatever it has started. With patience its input ends, and it may end by itself; its output is
        closed last, so that what it says last is not of that."""
        if self._keeper is None or self._keeper.returncode is not None:
            return
        if patience and self._keeper.stdin is not None:
            self._keeper.stdin.close()
            self._ending(patience)
        self._told.close()
        try:
            self._keeper.wait(2 * keeper.PATIENCE)
        except subprocess.TimeoutExpired:
            self._keeper.kill()
            self._keeper.wait()
        for pipe in (self._keeper.stdin, self._keeper.stdout):
            if pipe is not None:
                pipe.close()


def environment() -> Dict[str, str]:
    """What a bidder sees: no secrets of whoever runs the course. Python flushes each line, since a forgotten flush is
    the commonest fault.

    >>> environment()['PYTHONUNBUFFERED']
    '1'
    """
    return {**{name: os.environ[name] for name in KEPT if name in os.environ}, 'PYTHONUNBUFFERED': '1'}


def _read(pipe: int, end: float) -> Optional[bytes]:
    """What has come until then; None where nothing has."""
    with selectors.DefaultSelector() as selector:
        selector.register(pipe, selectors.EVENT_READ)
        left = end - time.monotonic()
        if left <= 0 or not selector.select(left):
            return None
        return os.read(pipe, LINE)
