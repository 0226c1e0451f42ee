#!/usr/bin/env python3
"""Bids 85 in 100 of what a kWh is worth, as where one pays what one bids."""
import sys

for line in sys.stdin:
    word, *rest = line.split()
    if word == 'round':
        worths = rest[rest.index('worths') + 1:]
        bids = [int(worth) * 85 // 100 for worth in worths]
        print('bids', rest[0], *bids, flush=True)
