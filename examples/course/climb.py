#!/usr/bin/env python3
"""Learns, where every round has the same market: changes a bid of the best row so far and keeps what gained more."""
import random
import sys

chance = random.Random(1).random
best = tried = most = None
for line in sys.stdin:
    word, *rest = line.split()
    if word == 'round':
        worths = [int(worth) for worth in rest[rest.index('worths') + 1:]]
        tried = list(best or worths)
        if best and chance() < 0.5:
            at = int(chance() * len(tried))
            tried[at] = min(1000000, int(worths[at] * (0, 0.7, 1, 1.5, 2)[int(chance() * 5)]))
        print('bids', rest[0], *tried, flush=True)
    elif word == 'result':
        gain = int(rest[rest.index('gain') + 1])
        if most is None or gain > most:
            best, most = tried, gain
