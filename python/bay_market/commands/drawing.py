"""bay picture."""
from __future__ import annotations

import os
from argparse import Namespace

from ..picture import draw
from .files import STDIN, in_file, load, write


def do_picture(args: Namespace) -> int:
    """A market and its clearing as SVG."""
    name, data, market = load(args.file)
    if args.guest is not None:
        from ..trying import menu
        in_file(name, data, lambda: menu(market, args.guest, args.rule))     # refuses a guest who is not there
    title = args.title if args.title is not None else '' if name == STDIN else os.path.basename(name)
    drawn = in_file(name, data, lambda: draw(market, args.rule, args.quiet, args.guest, args.width, title))
    write(args.out, drawn.encode())
    return 0
