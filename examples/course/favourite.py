#!/usr/bin/env python3
"""Bids at its best station alone."""
import sys

for line in sys.stdin:
    word, *rest = line.split()
    if word == 'round':
        worths = [int(worth) for worth in rest[rest.index('worths') + 1:]]
        best = worths.index(max(worths))
        print('bids', rest[0], *[worth if at == best else 0 for at, worth in enumerate(worths)], flush=True)
