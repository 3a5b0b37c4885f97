#!/usr/bin/env python3
"""Prints a script of one pair with so many events: ticks that fill the bag, deliveries from all over it,
and choices that are refused."""
import sys


def events(count):
    yield from ("act completed", "tick p", "deliver 1", "choose close", "tick c", "deliver 2")
    bag = 2
    for turn in range(count - 6):
        kind = turn % 4
        if kind == 0:
            bag += 1
            yield "tick c"
        elif kind == 1:
            yield f"deliver {turn * 7919 % bag + 1}"
        elif kind == 2:
            yield "choose undo"
        else:
            yield "tick p"


print("\n".join(events(int(sys.argv[1]))))
