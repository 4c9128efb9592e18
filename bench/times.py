#!/usr/bin/env python3
"""times.py PROGRAM [PART ..]: milliseconds and memory of the program, as a game sees them over its pipes.

The parts are maps, steps, turns, workers, dearest, memory, tables and course; all of them where none is named. Each is of one match or a
few: a turn is timed from its first post, or its end line, to its last answer. What else runs on the machine is in these
times, which is why most parts say the least of several turns; `measure.py` counts what does not vary. The maps and posts
are drawn from fixed seeds.
"""

import random
import subprocess
import sys
import time

import beside_0ad
from measure import add, bases, drawn, end, largest_area, map_line, path, remove, scattered, scattered_squares, short_turns
import commands  # (of tools, where measure.py finds it)


class Match:
    """The program as a child, to which turns are sent one after another."""

    def __init__(self, program, workers=1, word="replay"):
        command = [program, word, "--workers", str(workers)]
        self.child = subprocess.Popen(command, stdin=subprocess.PIPE, stdout=subprocess.PIPE)
        self.turns = 0
        self.more = word != "replay"

    def play(self, posts, before=()):
        """The milliseconds of a turn, to its last answer. Lines `before` it are not timed, but where they wait in the pipe."""
        self.turns += 1
        self.child.stdin.write("".join(line + "\n" for line in before).encode())
        text = "".join(line + "\n" for line in [*posts, end(self.turns)]).encode()
        answers = 1 + len(posts) + (sum('"path"' in post for post in posts) if self.more else 0)
        start = time.perf_counter()
        self.child.stdin.write(text)
        self.child.stdin.flush()
        for _ in range(answers):
            line = self.child.stdout.readline()
        took = time.perf_counter() - start
        if not line:
            sys.exit("the program has ended before its last answer")
        return 1000 * took

    def memory(self):
        """The most memory that the program had at once, in MB."""
        with open(f"/proc/{self.child.pid}/status", encoding="ascii") as it:
            return next(int(line.split()[1]) / 1024 for line in it if line.startswith("VmHWM"))

    def most_in(self, turns):
        """The most memory that the program had at once while it played turns with these posts, in MB."""
        with open(f"/proc/{self.child.pid}/clear_refs", "w", encoding="ascii") as it:
            it.write("5")  # the most so far is forgotten
        for posts in turns:
            self.play(posts)
        return self.memory()

    def close(self):
        self.child.stdin.close()
        self.child.stdout.close()
        self.child.wait()


def opened(program, lines, workers=1, word="replay"):
    """A match whose map has been set up."""
    match = Match(program, workers, word)
    match.play([], lines)
    return match


def least(match, turns):
    """The least time of turns with these posts."""
    return min(match.play(posts) for posts in turns)


def in_turns(matches, turns):
    """The sorted times of each of the matches, which play the same turns one after the other, so that what else runs on the
    machine meets all of them alike."""
    times = [[] for _ in matches]
    for number, posts in enumerate(turns):
        order = list(zip(matches, times))
        for match, its in order if number % 2 else reversed(order):
            its.append(match.play(posts))
    return [sorted(its) for its in times]


def told(name, *figures, unit="10.3f"):
    print(f"  {name:62}" + "".join(f"{figure:{unit}}" for figure in figures), flush=True)


def maps(program):
    print("maps: a path of 200 of one turn, on the maps of beside_0ad.py, the least of 100 turns and the median")
    for name in beside_0ad.MAPS:
        lines, paths = beside_0ad.script(name)
        match = opened(program, lines)
        (times,) = in_turns([match], [paths] * 100)
        told(name, times[0] / len(paths), times[49] / len(paths))
        match.close()


def setups(program, name, lines):
    """The least of seven times from the start of the program to the answer of a first turn with nothing in it."""
    times = []
    for _ in range(7):
        start = time.perf_counter()
        match = opened(program, lines)
        times.append(1000 * (time.perf_counter() - start))
        match.close()
    told(name, min(times))


def edit_turns(many):
    return [[add(99999, 257, 253, 3) if turn % 2 else remove(99999)] for turn in range(1, many + 1)]


def crowded(side, others):
    """A map of 8 classes with buildings of 4 by 4, as the part `edits` of measure.py has them."""
    step = int(side / others**0.5)
    places = [(x, z) for z in range(step, side - 4, step) for x in range(step, side - 4, step)][: others - 1]
    return [map_line(side, [f"{k / 2}" for k in range(8)]), *(add(k, x, z, 2) for k, (x, z) in enumerate(places))]


def steps(program):
    print("steps: the least of 200 turns of a kind on 512 by 512, of 40 fields, of 7 set-ups from the start of the program")
    match = opened(program, [map_line(512)])
    told("a turn without posts", least(match, [[]] * 200))
    told("an edit of one 6 by 6 building, one class", least(match, edit_turns(200)))
    match.close()
    lines = crowded(512, 1600)
    match = Match(program)
    match.play(lines[1:], lines[:1])
    told("the same with 8 classes among 1,599 others", least(match, edit_turns(200)))
    match.close()
    for name in ("blobs_512", "rooms_512", "maze4_512", "random20_512"):
        lines, paths = beside_0ad.script(name)
        with_field, without = opened(program, lines, word="flow"), opened(program, lines)
        one, other = ([least(match, [[it]] * 5) for it in paths[:8]] for match in (with_field, without))
        told(f"a field, {name}", sum(a - b for a, b in zip(one, other)) / len(one))
        with_field.close(), without.close()
    setups(program, "set-up of an open map, one class", [map_line(512)])
    setups(program, "set-up of an open map, 4 classes", [map_line(512, ["0", "0.5", "1", "2"])])
    setups(program, "set-up of an open map of 2048 by 2048, one class", [map_line(2048)])


def turns(program):
    print("turns: 300 turns of so many short paths among blobs, by the side: the medians with 1 worker, with 1 in another")
    print("  match and with 4, and the 99ths of 100; the two matches with 1 tell how far times differ by themselves")
    for side in (256, 512, 2048):
        for many in (1, 8, 50, 200):
            lines, posts = short_turns(side, many, 300)
            times = [[], [], []]
            # Matches are opened anew for each 30 turns, so that none has the better processor for long.
            for first in range(0, 300, 30):
                order = [(first // 30 + place) % 3 for place in range(3)]
                matches = [opened(program, lines, (1, 1, 4)[place]) for place in order]
                for match in matches:
                    match.play(posts[first])
                for place, its in zip(order, in_turns(matches, posts[first : first + 30])):
                    times[place] += its
                for match in matches:
                    match.close()
            told(f"{side} by {side}, {many} paths", *(sorted(its)[place] for place in (149, 296) for its in times))


def workers(program):
    print("workers: a turn of 64 long paths where each fifth navcell is blocked, by 1, 2 and 4 workers, median and least of 40 turns")
    for side in (512, 1024):
        lines, paths = drawn("scattered", side, 64)
        matches = [opened(program, lines, many) for many in (1, 2, 4)]
        times = in_turns(matches, [paths] * 40)
        told(f"{side} by {side}", *(its[19] for its in times), *(its[0] for its in times))
        for match in matches:
            match.close()


def dearest(program):
    print("dearest: of 300 paths, each alone in its turn, on 2048 by 2048 where each fifth navcell is blocked: mean, 99th, most")
    draw = random.Random("dearest")
    blocked = scattered(2048, draw)
    area = largest_area(blocked)
    pairs = [(draw.choice(area), draw.choice(area)) for _ in range(300)]
    match = opened(program, [map_line(2048), *bases(blocked)])
    first = [match.play([path(*pair)]) for pair in pairs]
    again = [least(match, [[path(*pair)]] * 2) for pair in pairs]
    for name, times in ("while tables of landmarks come", first), ("once they stand, the least of 2", again):
        told(f"milliseconds {name}", sum(times) / len(times), sorted(times)[-4], max(times), unit="10.1f")
    worst, pair = max(zip(again, pairs))
    told(f"the dearest of these, from {pair[0]} to {pair[1]}", worst, unit="10.1f")
    told("MB at the most", match.memory(), unit="10.1f")
    match.close()


def walls(draw):
    """200 walls of 512 by 1 navcells at an angle of 30 degrees."""
    place = lambda: f'"{draw.randrange(256, 1792)}","{draw.randrange(256, 1792)}"'
    return [f'{{"caller":0,"add":{k},"square":[{place()},"0.8660254","0.5","256","0.5"]}}' for k in range(200)]


def memory(program):
    print("memory: MB at the most with 1 and 4 workers after the set-up, and after a turn of 64 long paths")
    for name, line, word in (
        ("an open map of 512 by 512, 4 classes", map_line(512, ["0", "0.5", "1", "2"]), "replay"),
        ("an open map of 512 by 512, one class, profile", map_line(512), "profile"),
        ("an open map of 2048 by 2048, one class", map_line(2048), "replay"),
        ("an open map of 2048 by 2048, 16 classes", map_line(2048, [f"{k / 2}" for k in range(16)]), "replay"),
    ):
        side = 512 if "[512" in line else 2048
        draw = random.Random("memory")
        cell = lambda low: (draw.randrange(low, low + side // 4), draw.randrange(side))
        paths = [path(cell(0), cell(3 * side // 4)) for _ in range(64)]
        figures = []
        for posts in ([], paths):
            for many in (1, 4):
                match = opened(program, [line], many, word)
                match.play(posts)
                figures.append(match.memory())
                match.close()
        told(f"{name} (and with paths)", *figures, unit="10.1f")
    print("  after a turn that adds obstructions to an open map of 2048 by 2048, and the seconds from the start of the program")
    turned = walls(random.Random("walls"))
    for name, clearances, posts in (
        ("16 classes, 200 walls at an angle", ["0"] * 16, turned),
        ("16 classes from 0 on in steps of a half, the same walls", [f"{k / 2}" for k in range(16)], turned),
        ("8 classes, 65,535 squares of 2 by 2 on 8 by 8 each", ["0"] * 8, [add(k, k % 256 * 8 + 4, k // 256 * 8 + 4, 1) for k in range(65535)]),
    ):
        start = time.perf_counter()
        match = opened(program, [map_line(2048, clearances)])
        match.play(posts)
        told(name, match.memory(), time.perf_counter() - start, unit="10.2f")
        match.close()
    lines, paths = beside_0ad.script("rooms_2048")
    figures = []
    for word in ("replay", "flow"):
        for many in (1, 4):
            match = opened(program, lines, many, word)
            match.play(paths[:3])
            figures.append(match.memory())
            match.close()
    told("three paths in rooms of 2048 by 2048 (and with fields)", *figures, unit="10.1f")


def tables(program):
    print("tables: MB at the most where each fifth navcell is blocked, in a turn of 20 long paths of each class that has room for")
    print("  tables of landmarks: without tables, in the turns in which they are made, and in a later turn with all of them")
    for side in (256, 512, 1024, 2048):
        (_, *base), paths = drawn("scattered", side, 20)
        for classes in (1, 2, 8, 16):
            guided = min(classes, 68_000_000 // (16 * (side + 2) ** 2))
            posts = [it.replace('"c0"', f'"c{k}"') for k in range(guided) for it in paths]
            match = opened(program, [map_line(side, ["0"] * classes), *(it.replace(",1]", f",{2**classes - 1}]") for it in base)])
            figures = [match.most_in([posts]), match.most_in([posts] * 5 + [[]] * 24), match.most_in([posts])]
            told(f"{side} by {side}, {classes} class{'es' * (classes > 1)}", *figures, unit="10.1f")
            match.close()


def course(program):
    print("course: 50,000 turns of one edit each on 2048 by 2048 with 8 classes, mean of the first 1,000 and of the last 1,000")
    for many in (1000, 65000):
        match = opened(program, [map_line(2048, [f"{k / 2}" for k in range(8)])])
        places = scattered_squares()[-many:]
        match.play([add(k, x, z, 1) for k, (x, z) in enumerate(places)])
        times = [match.play([add(99999, 49, 45, 3) if turn % 2 else remove(99999)]) for turn in range(1, 50001)]
        told(f"among {len(places)} squares of 2 by 2", sum(times[:1000]) / 1000, sum(times[-1000:]) / 1000)
        match.close()


PARTS = [maps, steps, turns, workers, dearest, memory, tables, course]


def main(words):
    names = {part.__name__: part for part in PARTS}
    if not words or words[0].startswith("-") or any(word not in names for word in words[1:]):
        return commands.usage(__doc__, words)
    for part in [names[word] for word in words[1:]] or PARTS:
        part(words[0])


if __name__ == "__main__":
    commands.run(lambda: main(sys.argv[1:]))
