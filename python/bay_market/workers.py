"""Work in several processes. What a search does is mostly Python's own, so that threads would wait for each other."""
from __future__ import annotations

import os
import selectors
import signal
from typing import Callable, Iterator, List, NoReturn, Tuple

Work = Callable[[int], List[int]]


class WorkerFailed(Exception):
    """A process could not be started, or ended before its work was done."""


def cores() -> int:
    """The processors that this process may use.

    >>> cores() >= 1
    True
    """
    return len(os.sched_getaffinity(0))


def shared(work: Work, count: int, processes: int) -> Iterator[Tuple[int, List[int]]]:
    """What `work` gives for 0 to count - 1, each with its number, as they come. Where the caller stops, the processes
    are ended.

    >>> sorted(shared(lambda number: [number * number], 5, 2))
    [(0, [0]), (1, [1]), (2, [4]), (3, [9]), (4, [16])]
    >>> list(shared(lambda number: [number], 2, 1))
    [(0, [0]), (1, [1])]
    """
    if processes < 2 or count < 2:
        for number in range(count):
            yield number, work(number)
        return
    started: List[Tuple[int, int]] = []
    try:
        for first in range(min(processes, count)):
            started.append(_start(work, range(first, count, processes), [pipe for _, pipe in started]))
        yield from _heard([pipe for _, pipe in started], count)
    finally:
        for process, pipe in started:
            os.close(pipe)
            os.kill(process, signal.SIGKILL)        # it was not waited for: the number is still its own
            os.waitpid(process, 0)


def _start(work: Work, numbers: range, others: List[int]) -> Tuple[int, int]:
    """A process that writes a line for each number: its number and the process's end of a pipe."""
    mine, theirs = os.pipe()
    try:
        process = os.fork()
    except OSError as error:
        os.close(mine)
        os.close(theirs)
        raise WorkerFailed(f'cannot start a process: {error.strerror}') from None
    if process:
        os.close(theirs)
        return process, mine
    _worker(work, numbers, theirs, [mine, *others])


def _worker(work: Work, numbers: range, pipe: int, others: List[int]) -> NoReturn:
    """The life of a process: nothing that the one that started it has open is flushed or closed twice."""
    try:
        signal.signal(signal.SIGINT, signal.SIG_IGN)        # Ctrl-C is told to all; who started us ends us
        for other in others:
            os.close(other)
        for number in numbers:
            line = ' '.join(map(str, (number, *work(number))))
            os.write(pipe, line.encode() + b'\n')           # shorter than what a pipe takes at once
        os._exit(0)
    except BaseException:
        os._exit(1)


def _heard(pipes: List[int], count: int) -> Iterator[Tuple[int, List[int]]]:
    parts = {pipe: b'' for pipe in pipes}
    with selectors.DefaultSelector() as selector:
        for pipe in pipes:
            selector.register(pipe, selectors.EVENT_READ)
        while selector.get_map():
            for key, _ in selector.select():
                data = os.read(key.fd, 1 << 16)
                if not data:
                    selector.unregister(key.fd)
                *lines, parts[key.fd] = (parts[key.fd] + data).split(b'\n')
                for line in lines:
                    number, *found = map(int, line.split())
                    count -= 1
                    yield number, found
    if count:
        raise WorkerFailed('a process ended before its work was done')
