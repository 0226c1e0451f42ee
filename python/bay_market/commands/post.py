"""bay post."""
from __future__ import annotations

import sys
from argparse import Namespace
from typing import List, Optional, Tuple, Union

from ..market import Market
from ..store import Book, BookError, NotPosted, Posted
from .books import opened
from .files import InFile, load
from .output import Failed, as_json, err, lines

Ready = List[Tuple[str, bytes, Market]]         # name, bytes and market of each file


def do_post(args: Namespace) -> int:
    """Posts each file as a round of a desk; each answer is printed when its round is on the disk."""
    if sys.stdout is None:
        raise Failed(3, 'cannot write standard output: it is closed; nothing was posted')
    with opened(args.book, args.wait) as book:
        for first in range(0, len(args.files), args.together):
            _post(book, args, args.files[first:first + args.together], args.round + first)
    return 0


def _post(book: Book, args: Namespace, files: List[str], round_: int) -> None:
    """Posts files in one transaction. Where one cannot be read, those before it are posted first."""
    ready, wrong = _read(files)
    if ready:
        _settle(book, args, ready, round_)
    if isinstance(wrong, InFile):
        try:
            book.refuse(wrong.refused, round_ + len(ready), args.desk, args.rule)
        except BookError as error:
            _unkept(str(error))
    if wrong is not None:
        raise wrong


def _read(files: List[str]) -> Tuple[Ready, Optional[Union[InFile, Failed]]]:
    ready: Ready = []
    for name in files:
        try:
            ready.append(load(name))
        except (InFile, Failed) as wrong:
            return ready, wrong
    return ready, None


def _settle(book: Book, args: Namespace, ready: Ready, round_: int) -> None:
    rounds = [(market, number) for number, (_, _, market) in enumerate(ready, round_)]
    try:
        _tell(book.post_many(rounds, args.desk, args.rule, args.again), args.json)
    except NotPosted as refused:
        _tell(refused.posted, args.json)
        if refused.unkept:
            _unkept(refused.unkept)
        name, data, _ = ready[len(refused.posted)]
        raise InFile(refused, name, data) from None


def _tell(posted: List[Posted], json: bool) -> None:
    """Prints what is posted; a full disk or a closed pipe does not undo it, so that is said."""
    for k, one in enumerate(posted):
        try:
            if json:
                before = {} if one.before is None else {'before': one.before}
                as_json({'posted': True, 'desk': one.desk, 'round': one.round, 'entry': one.entry, 'sum': one.sum,
                         **before})
            else:
                lines([f'posted desk {one.desk} round {one.round} entry {one.entry}'])
            sys.stdout.flush()
        except OSError:
            err(f'desk {one.desk}, rounds {one.round} to {posted[-1].round} are posted, which could not be printed')
            raise
        if one.before is not None:
            err(f'desk {one.desk}, round {one.round} was posted at {one.before}, with this very sheet and rule')


def _unkept(why: str) -> None:
    err(f'the refusal could not be kept: {why}')
