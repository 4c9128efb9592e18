#!/usr/bin/env python3
"""beside_0ad.py PROGRAM [MAP ..]: what a long path costs beside 0 A.D. 0.0.26, in millions of instructions.

The maps are blobs_512, rooms_512, forest_512, maze4_512, random20_512 and rooms_2048; all of them where none is named. Each has a
blocked rim and 200 queries, whose two cells straight steps join, and one class without clearance. A path is the count
of `replay --workers 1` for the map with its queries in one turn, less that for the map alone, by 200 (valgrind).

The counts of 0 A.D. were taken once on the same maps and queries, of its long-range pathfinder alone, with its cache of
jump points off and on: the lesser of the two stands here. Nothing in this repository makes them again.
"""

import random
import sys

from measure import Bench, bases, end, map_line, path
import commands  # (of tools, where measure.py finds it)

QUERIES = 200


def open_map(side):
    rim = bytearray(b"\1" * side)
    return [bytearray(rim), *(bytearray(b"\1" + bytes(side - 2) + b"\1") for _ in range(side - 2)), bytearray(rim)]


def rooms(side, draw):
    """Rooms of 31 by 31 navcells, with a door of two in nine of ten walls."""
    blocked = open_map(side)
    walls = range(32, side - 1, 32)
    for wall in walls:
        blocked[wall] = bytearray(b"\1" * side)
        for row in blocked:
            row[wall] = 1
    for first in range(0, side, 32):
        last = min(first + 32, side - 1) - 2
        for wall in walls if last > first + 1 else ():
            for is_row in (True, False):
                if draw.random() < 0.9:
                    door = draw.randrange(first + 1, last)
                    for at in (door, door + 1):
                        if is_row:
                            blocked[wall][at] = 0
                        else:
                            blocked[at][wall] = 0
    return blocked


def blobs(side, draw):
    """400 rectangles of 3 to 22 navcells a side."""
    blocked = open_map(side)
    for _ in range(400):
        wide, high = draw.randint(3, 22), draw.randint(3, 22)
        i, j = draw.randrange(1, side - 1 - wide), draw.randrange(1, side - 1 - high)
        for row in blocked[j : j + high]:
            row[i : i + wide] = b"\1" * wide
    return blocked


def forest(side, draw):
    """60 clumps of 70 trees, each a round lump of some 13 navcells; there are gaps between trees."""
    blocked = open_map(side)
    for _ in range(60):
        x, z = draw.uniform(0, side), draw.uniform(0, side)
        for _ in range(70):
            a, b = draw.gauss(x, 14.0), draw.gauss(z, 14.0)
            for j in range(int(b) - 3, int(b) + 4):
                for i in range(int(a) - 3, int(a) + 4):
                    if 0 < i < side - 1 and 0 < j < side - 1 and (i + 0.5 - a) ** 2 + (j + 0.5 - b) ** 2 <= 4.2:
                        blocked[j][i] = 1
    return blocked


def random20(side, draw):
    """Each fifth navcell, by chance."""
    blocked = open_map(side)
    for row in blocked[1:-1]:
        for i in range(1, side - 1):
            row[i] |= draw.random() < 0.2
    return blocked


def maze4(side, draw):
    """A maze of ways 4 navcells wide, of walls that are opened in an order by chance where they part two trees."""
    many, blocked = (side - 1) // 5, [bytearray(b"\1" * side) for _ in range(side)]
    tree = list(range(many * many))

    def root(node):
        while tree[node] != node:
            tree[node] = node = tree[tree[node]]
        return node

    walls = list(range(2 * many * many))
    draw.shuffle(walls)
    for wall in walls:
        node, is_north = wall // 2, wall % 2
        i, j = node % many, node // many
        if (j if is_north else i) + 1 == many:
            continue
        one, other = root(node), root(node + (many if is_north else 1))
        if one == other:
            continue
        tree[one] = other
        wide, high = (4, 9) if is_north else (9, 4)
        for row in blocked[5 * j + 1 : 5 * j + 1 + high]:
            row[5 * i + 1 : 5 * i + 1 + wide] = bytes(wide)
    return blocked


def areas(blocked):
    """For each cell a number that it shares with the cells to which straight steps lead, and 0 where it is blocked."""
    side = len(blocked)
    area = [0] * (side * side)
    for start in range(side * side):
        if area[start] or blocked[start // side][start % side]:
            continue
        area[start], left = start + 1, [start]
        while left:
            at = left.pop()
            for beside in (at - 1, at + 1, at - side, at + side):
                if not area[beside] and not blocked[beside // side][beside % side]:
                    area[beside] = start + 1
                    left.append(beside)
    return area


def queries(blocked, draw):
    side, area, pairs = len(blocked), areas(blocked), []
    while len(pairs) < QUERIES:
        one, other = draw.randrange(side * side), draw.randrange(side * side)
        if one != other and area[one] and area[one] == area[other]:
            pairs.append(((one % side, one // side), (other % side, other // side)))
    return pairs


MAPS = {
    "blobs_512": (blobs, 0.37),
    "rooms_512": (rooms, 0.65),
    "forest_512": (forest, 1.01),
    "maze4_512": (maze4, 3.82),
    "random20_512": (random20, 9.26),
    "rooms_2048": (rooms, 10.6),
}


def script(name):
    make, side, draw = MAPS[name][0], int(name.split("_")[1]), random.Random(name)
    blocked = make(side, draw)
    return [map_line(side), *bases(blocked)], [path(*pair) for pair in queries(blocked, draw)]


def main(words):
    if not words or words[0].startswith("-") or any(word not in MAPS for word in words[1:]):
        return commands.usage(__doc__, words)
    bench = Bench(words[0])
    print(f"{'map':14}{'a path':>10}{'0 A.D.':>10}{'ratio':>8}")
    for name in words[1:] or MAPS:
        lines, paths = script(name)
        cost = (bench.count([*lines, *paths, end(1)]) - bench.count([*lines, end(1)])) / QUERIES / 1e6
        print(f"{name:14}{cost:10.3f}{MAPS[name][1]:10.2f}{cost / MAPS[name][1]:8.2f}", flush=True)


if __name__ == "__main__":
    commands.run(lambda: main(sys.argv[1:]))
