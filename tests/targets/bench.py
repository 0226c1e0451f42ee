#!/usr/bin/env python3
"""bench.py FOLDER: the functions on x86-64, on x86-64-v3 where the processor has it, and on wasm32 in Node, as a
Markdown table. Each contender makes the calls of calls.c, the same ones, in processes that take turns; a figure is the median of
the rounds, each on another market and the least of some passes. FOLDER has what ./bench built: calls, x86-64 and
x86-64-v3 with the shared library, and calls.wasm with bay_market.wasm where they are."""
import os
import pathlib
import statistics
import subprocess
import sys

ROUNDS = 15
SIZES = (200, 40), (24, 8)
FOLDER = pathlib.Path(sys.argv[1]).resolve()
SCRIPT = pathlib.Path(__file__).with_name('calls.mjs')


def native(name):
    return [FOLDER / 'calls'], {**os.environ, 'LD_LIBRARY_PATH': str(FOLDER / name)}


def contenders():
    """Name: command and environment."""
    out = {'x86-64': native('x86-64')}
    loader = subprocess.run(['/lib64/ld-linux-x86-64.so.2', '--help'], capture_output=True, text=True, check=True)
    if 'x86-64-v3 (supported' in loader.stdout and any((FOLDER / 'x86-64-v3').iterdir()):
        out['x86-64-v3'] = native('x86-64-v3')
    if (FOLDER / 'calls.wasm').is_file():
        out['wasm32'] = ['node', SCRIPT, FOLDER / 'bay_market.wasm', FOLDER / 'calls.wasm'], None
    return out


def times(contender, seed, size):
    command, environment = contender
    words = [*command, 'time', str(seed), *map(str, size)]
    said = subprocess.run(words, capture_output=True, text=True, check=True, env=environment).stdout
    return {name: float(time) / 1000 for name, time in (line.split() for line in said.splitlines())}


def main():
    all_of = contenders()
    others = list(all_of)[1:]
    print('\n| the same calls | x86-64 µs |' + ''.join(f' {name} µs | {name} / x86-64 |' for name in others))
    print('|' + '---|' * (2 + 2 * len(others)))
    for size in SIZES:
        rounds = [{name: times(contender, seed, size) for name, contender in all_of.items()} for seed in range(ROUNDS)]
        for function in rounds[0]['x86-64']:
            median = {name: statistics.median(told[name][function] for told in rounds) for name in all_of}
            cells = ''.join(f' {median[name]:.2f} | {median[name] / median["x86-64"]:.2f} |' for name in others)
            print(f'| {size[0]} by {size[1]}, {function} | {median["x86-64"]:.2f} |{cells}')


main()
