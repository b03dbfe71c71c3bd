#!/usr/bin/env python3
"""What crates/entry_values_mixes must print, by a queue with two ends: `python3 tools/entry_values.py > crates/entry_values_mixes/stdout`.

For each count from 0 to one more than the slice has, every mix of seven calls on a reader of the slice's first `count` rounds: `next`
takes the first round left, `next_back` the last, and either says none once nothing is left.
"""
from collections import deque
from itertools import product

SLICE = [7, 0, 2**64 - 1, 12, 9]
CALLS = 7


def line(count, calls):
    left = deque(SLICE[:count])
    words = [str(count)]
    for call in calls:
        take = left.popleft if call == "f" else left.pop
        words.append(f"{call}:{take() if left else 'none'}")
    return " ".join(words)


for count in range(len(SLICE) + 2):
    # the first call changes fastest
    for calls in product("fb", repeat=CALLS):
        print(line(count, reversed(calls)))
