#!/usr/bin/env python3
"""Bids what a kWh is worth at each station."""
import sys

for line in sys.stdin:
    word, *rest = line.split()
    if word == 'round':
        worths = rest[rest.index('worths') + 1:]
        print('bids', rest[0], *worths, flush=True)
