#!/usr/bin/env python3
"""Holds a wheel to its sources or to another wheel.

    tools/wheel.py WHEEL           its modules and library are those of python/bay_market and prebuilt/x86_64-linux
    tools/wheel.py WHEEL OTHER     both have the same files; what the building tools write of themselves may differ only
                                   where the tools do"""
import pathlib
import sys
import zipfile

ROOT = pathlib.Path(__file__).resolve().parent.parent
PACKAGE, LIBRARY = ROOT / 'python/bay_market', ROOT / 'prebuilt/x86_64-linux/libbay_market.so'


def files(path):
    with zipfile.ZipFile(path) as wheel:
        return {name: wheel.read(name) for name in wheel.namelist()}


def sources():
    found = [path for path in PACKAGE.rglob('*') if path.suffix == '.py' or path.name == 'py.typed']
    out = {f'bay_market/{path.relative_to(PACKAGE)}': path.read_bytes() for path in found}
    return {**out, 'bay_market/libbay_market.so': LIBRARY.read_bytes()}


def described(held, of_tools):
    """The files without those of the folder that the building tools write, or with them."""
    return {name: data for name, data in held.items() if of_tools or '.dist-info/' not in name}


def tools(held):
    """The line in which the tools name themselves."""
    return next(data.split(b'Generator:')[1].split(b'\n')[0] for name, data in held.items() if name.endswith('/WHEEL'))


def main(paths):
    held = files(paths[0])
    other = files(paths[1]) if paths[1:] else sources()
    whole = bool(paths[1:]) and tools(held) == tools(other)
    one, two = described(held, whole), described(other, whole)
    for name in sorted(set(one) | set(two)):
        if one.get(name) != two.get(name):
            print(f'{paths[0]}: {name} is not that of {paths[1] if paths[1:] else "the sources: run scripts/wheel"}',
                  file=sys.stderr)
            return 1
    return 0


sys.exit(main(sys.argv[1:]))
