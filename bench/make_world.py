#!/usr/bin/env python3
"""make_world.py KIND COUNT: prints a script of a world with so many events, which are all played.

three: activities of a coordinator's node and two participants', one after another, each closed.
many: the same over 64 nodes, whose participants take turns.
wide: one activity with 256 participants over three nodes, and then ticks and deliveries all over it."""
import itertools
import sys


class World:
    """Counters of the nodes and the length of the bag, as a play has them."""

    def __init__(self, nodes):
        self.last = [0] * (nodes + 1)
        self.bag = 0

    def name(self, node):
        self.last[node] += 1
        return f"{node}.{self.last[node]}"

    def sent(self):
        self.bag += 1
        return self.bag

    def begin(self, scope, nodes):
        """Participants on these nodes join, register and complete: their names, and those of their ends."""
        parts = []
        for node in nodes:
            parts.append(self.name(node))
            yield f"join {node} pc {scope}"
        registers = []
        for part in parts:
            registers.append(self.sent())
            yield f"tick {part}"
        ends, answers = [], []
        for register in registers:
            ends.append(self.name(1))
            answers.append(self.sent())
            yield f"deliver {register}"
        for answer in answers:
            yield f"deliver {answer}"
        yield from self.say(parts, "completed")
        return parts, ends

    def say(self, parts, act):
        """The work of each participant comes to this, and its end hears of it."""
        for part in parts:
            yield f"act {part} {act}"
        yield from self.tell(parts)

    def tell(self, objects):
        letters = []
        for name in objects:
            letters.append(self.sent())
            yield f"tick {name}"
        for letter in letters:
            yield f"deliver {letter}"


def activities(world, pairs):
    for pair in pairs:
        scope = world.name(1)
        yield "create 1 atomic"
        parts, ends = yield from world.begin(scope, pair)
        yield f"decide {scope} close"
        yield from world.tell(ends)
        yield from world.say(parts, "closed")


def wide(world):
    scope = world.name(1)
    yield "create 1 atomic"
    _, ends = yield from world.begin(scope, [2 + turn % 2 for turn in range(256)])
    yield f"decide {scope} close"
    for turn in itertools.count():
        world.sent()
        yield f"tick {ends[turn * 101 % 256]}"
        yield f"deliver {turn * 7919 % world.bag + 1}"


def events(kind):
    if kind == "three":
        return 3, activities(World(3), itertools.repeat((2, 3)))
    if kind == "many":
        return 64, activities(World(64), ((2 + turn % 63, 2 + (turn + 31) % 63) for turn in itertools.count()))
    return 3, wide(World(3))


nodes, lines = events(sys.argv[1])
print(f"nodes {nodes}")
print("\n".join(itertools.islice(lines, int(sys.argv[2]))))
