#!/usr/bin/env python3
"""measure.py PROGRAM [PART ..]: what the program costs, in instructions counted by valgrind (Debian's package `valgrind`).

The parts are basics, reading, near, growth, classes, paths, small, profile, fields, smoothing, edits, standing and crowd; all of them
where none is named. A count is the difference of two scripts that differ by the work that is counted, so starting up, reading the map
and building it are not in it unless it says so. Counts are in thousands of instructions with one worker. The maps and
queries are drawn from fixed seeds, so that each run counts the same. `times.py` has milliseconds and memory.
"""

import collections
import os
import random
import re
import subprocess
import sys
import tempfile

sys.path.append(os.path.join(os.path.dirname(os.path.abspath(__file__)), "..", "tools"))
import commands  # noqa: E402


class Bench:
    """The program, and what was counted for a script before."""

    def __init__(self, program):
        self.program = program
        self.known = {}

    def count(self, lines, word="replay", workers=1):
        """The instructions that the program takes for a script."""
        text = "".join(line + "\n" for line in lines).encode()
        key = (word, workers, hash(text))
        if key not in self.known:
            with tempfile.NamedTemporaryFile() as out:
                tool = ["valgrind", "--tool=callgrind", f"--callgrind-out-file={out.name}"]
                ran = subprocess.run([*tool, self.program, word, "--workers", str(workers)], input=text, capture_output=True)
            if ran.returncode:
                sys.exit(f"the program ended with status {ran.returncode}: {ran.stderr[-300:]}")
            self.known[key] = int(re.search(rb"Collected : (\d+)", ran.stderr)[1])
        return self.known[key]


def map_line(side, clearances=("0",)):
    classes = ",".join(f'{{"name":"c{k}","clearance":"{at}"}}' for k, at in enumerate(clearances))
    return f'{{"version":1,"size":[{side},{side}],"callers":1,"classes":[{classes}]}}'


def end(turn):
    return f'{{"end":{turn}}}'


def add(number, x, z, half):
    return f'{{"caller":0,"add":{number},"square":["{x}","{z}","1","0","{half}","{half}"]}}'


def remove(number):
    return f'{{"caller":0,"remove":{number}}}'


def path(start, goal, radius=None):
    """A path to a point, or to a circle round it."""
    (a, b), (c, d) = start, goal
    aim = f'"point":["{c}.5","{d}.5"]' if radius is None else f'"circle":["{c}.5","{d}.5","{radius}"]'
    return f'{{"caller":0,"path":"c0","from":["{a}.5","{b}.5"],"goal":{{{aim}}}}}'


def bases(blocked):
    """Base lines for the blocked cells of a map, one rectangle for each run of a row."""
    rectangles = []
    for j, row in enumerate(blocked):
        i = 0
        while i < len(row):
            if not row[i]:
                i += 1
                continue
            first = i
            while i < len(row) and row[i]:
                i += 1
            rectangles.append(f"[{first},{j},{i - 1},{j},1]")
    return [f'{{"base":[{",".join(rectangles[at:at + 500])}]}}' for at in range(0, len(rectangles), 500)]


def blobs(side, draw):
    """Round lumps of 4 to 12 navcells, about one for each 650 navcells."""
    blocked = [bytearray(side) for _ in range(side)]
    for _ in range(side * side // 650):
        x, z, r = draw.randrange(side), draw.randrange(side), draw.randrange(2, 7)
        for j in range(max(0, z - r), min(side, z + r + 1)):
            for i in range(max(0, x - r), min(side, x + r + 1)):
                if (i - x) ** 2 + (j - z) ** 2 <= r * r:
                    blocked[j][i] = 1
    return blocked


def rooms(side, draw):
    """Rooms of 31 by 31 navcells; nine of ten walls have a door of two."""
    blocked = [bytearray(side) for _ in range(side)]
    for at in range(0, side, 32):
        for k in range(side):
            blocked[at][k] = blocked[k][at] = 1
    for z in range(0, side, 32):
        for x in range(0, side, 32):
            for along in (True, False):
                if draw.random() < 0.9:
                    door = draw.randrange(2, 29)
                    for k in (door, door + 1):
                        j, i = (z, x + k) if along else (z + k, x)
                        if 0 < j < side and 0 < i < side:
                            blocked[j][i] = 0
    return blocked


def maze(side, draw):
    """A maze of ways 4 navcells wide between walls of 1, with one way between any two places."""
    cells = side // 5
    blocked = [bytearray(b"\1" * side) for _ in range(side)]
    seen, stack = {(0, 0)}, [(0, 0)]
    clear = lambda i0, j0, i1, j1: [blocked[j].__setitem__(i, 0) for j in range(j0, j1) for i in range(i0, i1)]
    clear(1, 1, 5, 5)
    while stack:
        x, z = stack[-1]
        ways = [(x + a, z + b) for a, b in ((1, 0), (-1, 0), (0, 1), (0, -1))]
        ways = [w for w in ways if 0 <= w[0] < cells and 0 <= w[1] < cells and w not in seen]
        ways = [w for w in ways if w[0] * 5 + 5 <= side and w[1] * 5 + 5 <= side]
        if not ways:
            stack.pop()
            continue
        u, v = way = draw.choice(ways)
        clear(min(x, u) * 5 + 1, min(z, v) * 5 + 1, max(x, u) * 5 + 5, max(z, v) * 5 + 5)
        seen.add(way)
        stack.append(way)
    return blocked


def scattered(side, draw):
    """Each fifth navcell, by chance."""
    return [bytearray(draw.random() < 0.2 for _ in range(side)) for _ in range(side)]


def largest_area(blocked):
    """The cells of the largest area, in the order in which they are found."""
    side = len(blocked)
    seen, largest = [bytearray(row) for row in blocked], []
    for j in range(side):
        for i in range(side):
            if seen[j][i]:
                continue
            seen[j][i], area, left = 1, [(i, j)], collections.deque([(i, j)])
            while left:
                x, z = left.popleft()
                for u, v in ((x + 1, z), (x - 1, z), (x, z + 1), (x, z - 1)):
                    if 0 <= u < side and 0 <= v < side and not seen[v][u]:
                        seen[v][u] = 1
                        area.append((u, v))
                        left.append((u, v))
            largest = max(largest, area, key=len)
    return largest


def far_pairs(blocked, many, draw):
    """Pairs of cells of the largest area that lie at least half a side apart."""
    side, largest, pairs = len(blocked), largest_area(blocked), []
    while len(pairs) < many:
        a, b = draw.choice(largest), draw.choice(largest)
        if max(abs(a[0] - b[0]), abs(a[1] - b[1])) * 2 >= side:
            pairs.append((a, b))
    return pairs


KINDS = {"blobs": blobs, "rooms": rooms, "maze": maze, "scattered": scattered}


def told(name, *counts):
    print(f"  {name:58}" + "".join(f"{count / 1000:13,.1f}" for count in counts), flush=True)


def basics(bench):
    print("basics: one post line that is read and refused; one turn without posts")
    bare = bench.count([map_line(64), end(1)])
    told("line", (bench.count([map_line(64), *map(remove, range(100)), end(1)]) - bare) / 100)
    told("turn", (bench.count([map_line(64), *map(end, range(1, 102))]) - bare) / 100)


def filled(line):
    """Lines of 1 MB in all, each made by a call."""
    lines, size = [], 0
    while size < 1 << 20:
        lines.append(line())
        size += len(lines[-1]) + 1
    return lines


def reading(bench):
    print("reading: 1 MB of base rectangles of single navcells, painting included; 1 MB of paths that are refused; less the map alone")
    draw = random.Random("reading")
    place = lambda: draw.randrange(2048)
    cell = lambda i, j: f"[{i},{j},{i},{j},1]"
    base = lambda: f'{{"base":[{",".join(cell(place(), place()) for _ in range(40))}]}}'
    bare = bench.count([map_line(2048), end(1)])
    told("base rectangles", bench.count([map_line(2048), *filled(base), end(1)]) - bare)
    refused = lambda: path((place(), place()), (place(), 2048))
    told("paths", bench.count([map_line(2048), *filled(refused), end(1)]) - bare)


def near(bench):
    print("near: to a goal, to a circle of half that radius, and from a start, in the middle of a blocked square so far from its rim, less the same to and from the rim")
    for far in (2, 8, 32, 128):
        low, high = 256 - far, 255 + far
        script = [map_line(512), f'{{"base":[[{low},{low},{high},{high},1]]}}']
        bare, corner, middle, rim = bench.count([*script, end(1)]), (0, 0), (256, 255), (256, low - 1)
        cost = lambda *walk: bench.count([*script, path(*walk), end(1)]) - bare
        told(f"{far}", cost(corner, middle) - cost(corner, rim), cost(corner, middle, far // 2) - cost(corner, rim), cost(middle, corner) - cost(rim, corner))


def growth(bench):
    print("growth: on open maps of one class, by the side: set-up, an edit of one 6 by 6 building, a path across")
    empty = bench.count([map_line(1), end(1)])
    for side in (64, 128, 256, 512, 1024, 2048):
        bare, middle, lines = bench.count([map_line(side), end(1)]), side // 2, [map_line(side)]
        for turn in range(1, 41):
            lines += [add(1, middle + 1, middle - 3, 3) if turn % 2 else remove(1), end(turn)]
        edits = (bench.count([*lines, end(41)]) - bare) / 40
        walk = bench.count([map_line(side), path((0, 0), (side - 1, middle)), end(1)]) - bare
        told(f"{side} by {side}", bare - empty, edits, walk)


def classes(bench):
    print("classes: set-up of an open map of 512 by 512, and an edit of one 6 by 6 building, by the number of classes")
    for many in (1, 4, 8, 16):
        line = map_line(512, [f"{k / 4}" for k in range(many)])
        bare, lines = bench.count([line, end(1)]), [line]
        for turn in range(1, 41):
            lines += [add(1, 257, 253, 3) if turn % 2 else remove(1), end(turn)]
        told(f"{many}", bare, (bench.count([*lines, end(41)]) - bare) / 40)


def drawn(kind, side, many):
    draw = random.Random(f"{kind} {side}")
    blocked = KINDS[kind](side, draw)
    return [map_line(side), *bases(blocked)], [path(*pair) for pair in far_pairs(blocked, many, draw)]


def paths(bench):
    print("paths: set-up, and one of 100 long paths, by the kind of map")
    for kind, side in (("blobs", 512), ("rooms", 512), ("maze", 512), ("scattered", 512), ("rooms", 2048)):
        script, queries = drawn(kind, side, 100)
        bare = bench.count([*script, end(1)])
        told(f"{kind}, {side} by {side}", bare, (bench.count([*script, *queries, end(1)]) - bare) / 100)


def near_pairs(area, inside, many, draw):
    """Pairs of cells of an area that lie at most 32 navcells apart along each side."""
    pairs = []
    while len(pairs) < many:
        (i, j), x, z = draw.choice(area), draw.randint(-32, 32), draw.randint(-32, 32)
        if 0 <= i + x < len(inside) and 0 <= j + z < len(inside) and inside[j + z][i + x]:
            pairs.append(((i, j), (i + x, j + z)))
    return pairs


def short_turns(side, many, turns):
    """A map with blobs, and turns of so many paths of at most 32 navcells each way on it."""
    draw = random.Random(f"turns {side}")
    blocked = blobs(side, draw)
    area, inside = largest_area(blocked), [bytearray(side) for _ in blocked]
    for i, j in area:
        inside[j][i] = 1
    posts = [[path(*pair) for pair in near_pairs(area, inside, many, draw)] for _ in range(turns)]
    return [map_line(side), *bases(blocked)], posts


def small(bench):
    print("small: a turn of so many short paths among blobs on 256 by 256, by 1 and by 4 workers")
    for many in (1, 8, 50, 200):
        lines, posts = short_turns(256, many, 20)
        turns = [line for turn, its in enumerate(posts, 1) for line in (*its, end(turn))]
        told(f"{many} paths", *((bench.count(lines + turns, workers=it) - bench.count(lines, workers=it)) / 20 for it in (1, 4)))


def profile(bench):
    print("profile: one of 100 long paths by replay, and by profile, which opens all states within the cost")
    for kind in KINDS:
        script, queries = drawn(kind, 512, 100)
        each = [
            (bench.count([*script, *queries, end(1)], word) - bench.count([*script, end(1)], word)) / 100
            for word in ("replay", "profile")
        ]
        told(f"{kind}, 512 by 512", *each)


def fields(bench):
    print("fields: by flow less by replay, for each of 3 long paths to goals of their own, and in all for 100 to one goal")
    for kind in KINDS:
        script, queries = drawn(kind, 512, 100)
        goal = queries[0][queries[0].index('"goal"') :]
        group = [query[: query.index('"goal"')] + goal for query in queries]
        more = lambda walks: bench.count([*script, *walks, end(1)], "flow") - bench.count([*script, *walks, end(1)])
        told(f"{kind}, 512 by 512", more(queries[:3]) / 3, more(group))


def smoothing(bench):
    print("smoothing: by smooth less by replay, for one of 100 long paths")
    for kind in KINDS:
        script, queries = drawn(kind, 512, 100)
        lines = [*script, *queries, end(1)]
        told(f"{kind}, 512 by 512", (bench.count(lines, "smooth") - bench.count(lines)) / 100)


def edits(bench):
    print("edits: an edit of one 6 by 6 building among others, 8 classes, by the side and the number of others")
    for side, others in ((512, 400), (512, 1600), (2048, 1600), (2048, 6400)):
        line, step = map_line(side, [f"{k / 2}" for k in range(8)]), int(side / others**0.5)
        places = [(x, z) for z in range(step, side - 4, step) for x in range(step, side - 4, step)][: others - 1]
        script = [line, *(add(k, x, z, 2) for k, (x, z) in enumerate(places)), end(1)]
        lines = [*script]
        for turn in range(2, 42):
            lines += [add(99999, side // 2 + 1, side // 2 - 3, 3) if turn % 2 == 0 else remove(99999), end(turn)]
        bare = bench.count(script)
        told(f"{side} by {side}, {len(places)} others (and setting them up)", (bench.count(lines) - bare) / 40, bare)


def scattered_squares():
    """The middles of squares of 2 by 2, one on each 8 by 8 navcells of 2048 by 2048, but for a corner of 192 by 192."""
    return [(x, z) for z in range(4, 2048, 8) for x in range(4, 2048, 8) if max(x, z) >= 192]


def standing(bench):
    print("standing: an edit of one 6 by 6 building in an empty corner of 2048 by 2048, 8 classes, by what stands elsewhere")
    for many in (0, 1000, 65000):
        places = scattered_squares()[-many:] if many else []
        script = [map_line(2048, [f"{k / 2}" for k in range(8)]), *(add(k, x, z, 1) for k, (x, z) in enumerate(places)), end(1)]
        lines = [*script]
        for turn in range(2, 42):
            lines += [add(99999, 49, 45, 3) if turn % 2 == 0 else remove(99999), end(turn)]
        told(f"{len(places)} squares of 2 by 2", (bench.count(lines) - bench.count(script)) / 40)


def crowd(bench):
    print("crowd: setting up an open map of 2048 by 2048 with 8 classes and so many obstructions spread over it")
    for many in (1024, 4096, 16384):
        row = int(many**0.5)
        step = 2048 / row
        lines = [add(k, round(k % row * step + 2), round(k // row * step + 2), 1) for k in range(many)]
        told(f"{many}", bench.count([map_line(2048, ["0"] * 8), *lines, end(1)]))


PARTS = [basics, reading, near, growth, classes, paths, small, profile, fields, smoothing, edits, standing, crowd]


def main(words):
    names = {part.__name__: part for part in PARTS}
    if not words or words[0].startswith("-") or any(word not in names for word in words[1:]):
        return commands.usage(__doc__, words)
    bench = Bench(words[0])
    for part in [names[word] for word in words[1:]] or PARTS:
        part(bench)


if __name__ == "__main__":
    commands.run(lambda: main(sys.argv[1:]))
