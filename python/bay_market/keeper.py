"""Runs a program, and in the end kills whatever it has started, in whichever group or session that is. bidder.py starts
one for each bidder, as a program of its own.

Words: the number of a socket, the bytes of address space, and the program's words. How the program ended is written to
the socket as a line; when whoever has its other end closes it, or is gone, all is killed. A process below this one
whose parent ends becomes this one's child (PR_SET_CHILD_SUBREAPER) and not init's, so that it is still below. It is no
sandbox: a program that kills its keeper gets away, and so does one whose processes follow each other faster than /proc
is read."""
from __future__ import annotations

import contextlib
import ctypes
import os
import resource
import select
import signal
import sys
import time
from typing import Dict, List, NoReturn, Set

FILES = 1 << 24             # bytes of the longest file that a bidder may write, standard error among them
PATIENCE = 10.0             # seconds for those that were killed to be gone
PR_SET_PDEATHSIG, PR_SET_CHILD_SUBREAPER = 1, 36


def _prctl(option: int, value: int) -> None:
    """Sets a property of this process."""
    if ctypes.CDLL(None, use_errno=True).prctl(option, value, 0, 0, 0):
        raise OSError(ctypes.get_errno(), 'prctl')


def parents() -> Dict[int, int]:
    """The parent of every process.

    >>> parents()[os.getpid()] == os.getppid()
    True
    """
    found = {}
    for name in os.listdir('/proc'):
        if name.isdigit():
            with contextlib.suppress(OSError), open(f'/proc/{name}/stat', 'rb') as file:    # it may end meanwhile
                found[int(name)] = int(file.read().rsplit(b')', 1)[1].split()[1])
    return found


def below(process: int, known: Dict[int, int]) -> Set[int]:
    """The processes below one.

    >>> sorted(below(2, {1: 0, 2: 1, 3: 2, 4: 3, 5: 1}))
    [3, 4]
    """
    found: Set[int] = set()
    new = {process}
    while new:
        new = {child for child, parent in known.items() if parent in new}
        found |= new
    return found


def _kill_all() -> None:
    """Kills what is below this process until nothing is: what was started meanwhile is found by the next look."""
    end = time.monotonic() + PATIENCE
    while time.monotonic() < end:
        for process in below(os.getpid(), parents()):
            with contextlib.suppress(ProcessLookupError, PermissionError):
                os.kill(process, signal.SIGKILL)
        if not _reap():
            return
        time.sleep(0.001)


def ending(code: int) -> str:
    """How a program ended, by its exit status or a signal's number less than 0.

    >>> ending(3), ending(-11)
    ('ended with status 3', 'killed by SIGSEGV')
    """
    if code >= 0:
        return f'ended with status {code}'
    names = {held.value: held.name for held in signal.Signals}
    return f'killed by {names.get(-code, f"signal {-code}")}'


def _tell(told: int, line: str) -> None:
    """Writes a line to whoever started us, if there still is one."""
    with contextlib.suppress(OSError):
        os.write(told, line.encode() + b'\n')


def _reap(program: int = 0, told: int = -1) -> bool:
    """Lets go of the children that have ended and tells how the program did; whether there are others."""
    while True:
        try:
            process, status = os.waitpid(-1, os.WNOHANG)
        except ChildProcessError:
            return False
        if not process:
            return True
        if process == program:
            _tell(told, ending(os.waitstatus_to_exitcode(status)))


def _run(words: List[str], memory: int, told: int) -> NoReturn:
    """In the new process: the program, in a session of its own, with its limits."""
    try:
        os.setsid()
        _prctl(PR_SET_PDEATHSIG, signal.SIGKILL)
        for number in (signal.SIGPIPE, signal.SIGXFSZ):     # Python ignores them
            signal.signal(number, signal.SIG_DFL)
        for what, wanted in ((resource.RLIMIT_AS, memory), (resource.RLIMIT_CORE, 0), (resource.RLIMIT_FSIZE, FILES)):
            allowed = resource.getrlimit(what)[1]
            most = wanted if allowed == resource.RLIM_INFINITY else min(wanted, allowed)
            resource.setrlimit(what, (most, most))
        os.execvp(words[0], words)
    except (OSError, ValueError) as error:
        _tell(told, f'cannot be started: {getattr(error, "strerror", None) or error}')
    finally:
        os._exit(127)


def _main() -> None:
    """Keeps a program until the socket is closed."""
    told, memory = int(sys.argv[1]), int(sys.argv[2])
    os.set_inheritable(told, False)
    _prctl(PR_SET_CHILD_SUBREAPER, 1)
    woken, wake = os.pipe()
    os.set_blocking(wake, False)
    signal.set_wakeup_fd(wake)
    signal.signal(signal.SIGCHLD, lambda *_: None)
    program = os.fork()
    if not program:
        _run(sys.argv[3:], memory, told)
    null = os.open(os.devnull, os.O_RDWR)
    for pipe in (0, 1, 2):
        os.dup2(null, pipe)                                 # they are the program's alone
    while told not in select.select([told, woken], [], [])[0]:
        os.read(woken, 4096)
        _reap(program, told)
    _kill_all()


if __name__ == '__main__':
    _main()
