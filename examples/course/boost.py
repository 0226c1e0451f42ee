#!/usr/bin/env python3
"""Bids twice the worth at its best station and the truth elsewhere, to be served there first."""
import sys

for line in sys.stdin:
    word, *rest = line.split()
    if word == 'round':
        bids = [int(worth) for worth in rest[rest.index('worths') + 1:]]
        best = bids.index(max(bids))
        bids[best] = min(1000000, 2 * bids[best])
        print('bids', rest[0], *bids, flush=True)
