#!/usr/bin/env python3
"""said.py LIBRARY: what said.mjs prints, on standard input, held to the shared library: the same calls are refused with
the same numbers and give the same."""
import collections
import json
import pathlib
import sys

sys.path.insert(0, str(pathlib.Path(__file__).resolve().parents[2] / 'tools'))
sys.dont_write_bytecode = True

import exports_table as table  # noqa: E402

LIBRARY = table.load(sys.argv[1])
# functions of whose lists only the first elements are given
CUT = ('read', 'read_csv', 'write')


def lent(kind, of, given):
    """What C is given: a list for a length, structs for lists by field."""
    if kind == 'out':
        return given or 0
    if kind == 'lent' and isinstance(given, int):
        return [0] * given
    if isinstance(given, dict):
        return [table.TYPES[of](*values) for values in zip(*given.values())]
    return given


def taken(of, given):
    """What C wrote: structs as lists by field."""
    if of in table.STRUCTS:
        return {field: [getattr(one, field) for one in given] for field, _ in table.STRUCTS[of]}
    return given


def agrees(said):
    parameters = table.EXPORTS['bay_market_' + said['name']]
    given = {name: lent(kind, of, said['given'].get(name)) for name, kind, of in parameters}
    answer, after = table.call(LIBRARY, 'bay_market_' + said['name'], **given)
    if answer != said.get('refused', 0):
        return False
    if answer != 0:
        return True
    got = {name: taken(of, after[name]) for name, _, of in parameters if name in after}
    if said['name'] in CUT:
        got = {name: held[:len(said['after'][name])] if isinstance(held, list) else held for name, held in got.items()}
    return got == said['after']


seen = collections.Counter()
for line in sys.stdin:
    said = json.loads(line)
    if not agrees(said):
        sys.exit(f'not as x86-64: {line[:2000]}')
    seen[said['name']] += 1
    seen['refused'] += 'refused' in said
missing = [name for name in table.EXPORTS if not seen[name[len('bay_market_'):]]]
if missing:
    sys.exit(f'not called: {missing}')
print(f"{sum(seen.values()) - seen['refused']} calls through bay_market.mjs, {seen['refused']} refused, as x86-64")
