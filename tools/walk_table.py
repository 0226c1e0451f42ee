#!/usr/bin/env python3
"""Writes crates/grid/src/walk_table.rt: the walks for squared distances 0 to 1,922. --check writes nothing, and fails
where the file is not what it would write."""
import math
import pathlib
import sys
import textwrap

MAX_SQUARED_DISTANCE = 1922
PATH = pathlib.Path(__file__).resolve().parent.parent / "crates/grid/src/walk_table.rt"

HEAD = """\
// The walks, generated: tools/walk_table.py.
ghost use Rattle.std.specs.Prelude.{◌+◌, ◌≡◌};
ghost use Rattle.model.specs.Limits.{max_squared_distance};
ghost use Rattle.model.specs.Counting.{list};
ghost use Rattle.model.specs.places.Bids.{walk};

use model::limits::MAX_SQUARED_DISTANCE;

// At q: the greatest whole d with d times d at most 100 times q.
const WALKS: [u16; MAX_SQUARED_DISTANCE + 1] = [
"""
TAIL = """\
];

// The walk for each squared distance, in tenths of a cell.
pub fn walks() -> [u16; MAX_SQUARED_DISTANCE + 1]
    ensures { result ≡ list (max_squared_distance + 1) walk }
{
    WALKS
}
"""


def table():
    """The numbers as `rt fmt` lays them out: lines of at most 100 columns."""
    numbers = (f"{math.isqrt(100 * q)}," for q in range(MAX_SQUARED_DISTANCE + 1))
    return textwrap.fill(" ".join(numbers), 100, initial_indent="    ", subsequent_indent="    ") + "\n"


def main():
    text = HEAD + table() + TAIL
    if sys.argv[1:] == ["--check"]:
        if PATH.read_text() != text:
            sys.exit(f"{PATH} is not as generated: run tools/walk_table.py")
    elif sys.argv[1:]:
        sys.exit(__doc__)
    else:
        PATH.write_text(text)


main()
