#!/usr/bin/env python3
"""A grid map of the pathfinding literature as a script, and its scenario's optimal lengths against the answers' costs.

Reads `.map` with `type octile` and `.scen` of version 1, as the benchmarks at movingai.com have them (Sturtevant,
"Benchmarks for Grid-Based Pathfinding", 2012). Cells `.`, `G` and `S` are passable, all others are not, be it `@`, a small
letter or a space. A map's first row is its northernmost, so row y of the map is row height-1-y here.

Without --class the script has one class `walker` without a clearance. With it each class has a clearance, and may have
letters of its own: `--class infantry:0.5 --class ship:1:WS` has ships walk on `W` and `S`. What a class cannot walk on is
grown by its clearance, rounded up to whole cells, as in 0 A.D. The paths are asked for by each class.

    from_movingai.py arena.map > arena.script                       # 20 random paths
    from_movingai.py arena.map arena.map.scen > arena.script        # the paths of the scenario
    from_movingai.py --class infantry:0.5 --class siege:1.5 arena.map > arena.script
    ./pathserve replay < arena.script > arena.answers
    tools/view.py arena.script arena.answers > arena.html
    from_movingai.py arena.map arena.map.scen --check arena.answers

A line of a scenario has nine words: bucket, map, width and height of the map, column and row of the start, column and row
of the goal, and the optimal length. Columns and rows are those of the map's text, from 0. The map's name is not compared,
its size is. In a scenario of your own the length may be left out; such a path is not compared.

Both count steps that cut no corner. A diagonal step costs the square root of 2 there, and 92682/65536 here, which is more
by 0.00011 percent. So a walk that is cheapest here is, measured as there, at most so much longer than the optimum, and no
shorter: --check holds each walk to that, with 0.001 for the scenario's rounding. It counts the paths that have a length,
and says so where some have none. Only the first class is compared, which must be one without a clearance. The status is 0 where all of them agree, 1 where some differ, and 2 where no path has a
length to compare, or a file is missing or has another form.
"""
import math

import commands
import contradictions
import mapmaking
from mapmaking import MOST, NoMap

PASSABLE = ".GS"
STRAIGHT, DIAGONAL = 65536, 92682
MORE = DIAGONAL / STRAIGHT / math.sqrt(2) - 1  # by how much a diagonal step costs more here
ROUNDING = 0.001  # of a scenario's lengths


def read_map(lines):
    """The rows of a map from the north, each a text of one letter a cell."""
    head, at = {}, 0
    while at < len(lines) and lines[at].strip() != "map":
        name, _, value = lines[at].strip().partition(" ")
        head[name], at = value.strip(), at + 1
    if at == len(lines) or head.get("type") != "octile" or not all(head.get(it, "").isdecimal() for it in ("height", "width")):
        raise NoMap("a map has the lines 'type octile', 'height H', 'width W' and 'map', and then its rows")
    height, width = int(head["height"]), int(head["width"])
    rows = [it.rstrip("\r\n") for it in lines[at + 1:]]
    while len(rows) > height and not rows[-1]:  # empty lines behind the last row
        rows.pop()
    if len(rows) != height:
        raise NoMap(f"the map has {len(rows)} rows, and its line 'height' says {height}")
    for number, row in enumerate(rows):
        if len(row) != width:
            raise NoMap(f"line {at + 2 + number} of the map has {len(row)} cells, and its line 'width' says {width}")
    if not 1 <= min(width, height) <= max(width, height) <= MOST:
        raise NoMap(f"a script's map has 1 to {MOST} cells a side, and this one is {width} by {height}")
    return rows


class Query:
    """Cells from and to, with columns from the west and rows from the north, and the optimal length where it is known."""

    def __init__(self, start, goal, length=None):
        self.start, self.goal, self.length = start, goal, length


def read_query(words, width, height):
    """The query of a scenario's line, and the size of its map."""
    w, h, a, b, c, d = map(int, words[2:8])
    if (w, h) != (width, height):
        raise NoMap(f"it is for a map of {w} by {h}")
    for name, i, y in (("start", a, b), ("goal", c, d)):
        if not (0 <= i < width and 0 <= y < height):
            raise NoMap(f"{name} {i} {y} is off the map")
    return Query((a, b), (c, d), float(words[8]) if len(words) > 8 else None)


def read_scenario(lines, rows, most):
    found = []
    for number, text in enumerate(lines, 1):
        words = text.split("\t") if "\t" in text else text.split()
        if not words or words[0] == "version":
            continue
        try:
            found.append(read_query(words, len(rows[0]), len(rows)))
        except NoMap as it:
            raise NoMap(f"line {number} of the scenario: {it}") from None
        except ValueError:
            raise NoMap(f"line {number} of the scenario is not: bucket, map, width, height, start, goal, length") from None
        if len(found) == most:
            break
    return found


def blocked(rows, kind):
    """The rows from the south that a class cannot walk on."""
    letters = kind.ground or PASSABLE
    bits = [sum(1 << i for i, it in enumerate(row) if it not in letters) for row in reversed(rows)]
    return mapmaking.grown(bits, kind.room, len(rows[0]))


def cells_of(query, height):
    """The cells of a query, with rows from the south."""
    return tuple((i, height - 1 - y) for i, y in (query.start, query.goal))


def steps(path):
    """How many straight and diagonal steps a path has."""
    straight = diagonal = 0
    for a, b in zip(path.places(), path.places()[1:]):
        di, dj = contradictions.direction(a, b)
        count = max(abs(b[0] - a[0]), abs(b[1] - a[1]))
        straight, diagonal = (straight, diagonal + count) if di and dj else (straight + count, diagonal)
    return straight, diagonal


def differs(query, said, height):
    """Why the answer to a query does not fit its optimal length, which it has, or None."""
    if not said or not said[0].startswith("path "):
        return f"no path: {said[0] if said else 'no reply'}"
    try:
        path = contradictions.Path(said[0])
        straight, diagonal = steps(path)
    except contradictions.Wrong as it:
        return str(it)
    if path.word != "goal" or path.end != (query.goal[0], height - 1 - query.goal[1]):
        return "the path does not end at the goal"
    if straight * STRAIGHT + diagonal * DIAGONAL != path.cost:
        return f"the walk does not cost {path.cost}"
    length = straight + diagonal * math.sqrt(2)
    if not query.length - ROUNDING <= length <= query.length * (1 + MORE) + ROUNDING:
        return f"the walk is {length:.5f} long, and the optimum is {query.length}"
    return None


def checked(rows, queries, answers):
    """Tells each query that differs, and how many of those that have a length agree."""
    replies, wrong = answers.turns.get(1, ("", {}))[1], 0
    known = [(number, it) for number, it in enumerate(queries) if it.length is not None]
    for number, query in known:
        why = differs(query, replies.get((0, number), []), len(rows))
        if why:
            wrong += 1
            print(f"query {number + 1}: {why}")
    if known:
        print(f"{len(known) - wrong} of {len(known)} lengths agree")
    if len(known) < len(queries) or not known:
        print(f"{len(known)} of {len(queries)} paths have a length to compare")
    return (1 if wrong else 0) if known else 2


def words():
    parser = commands.parser_of(__doc__)
    parser.add_argument("map", help="the .map file")
    parser.add_argument("scenario", nargs="?", help="the .scen file; without it the script asks for --paths N")
    parser.add_argument("--most", type=int, default=0, metavar="N", help="only the first N queries of the scenario")
    mapmaking.add_words(parser, "NAME:CLEARANCE:LETTERS has others than .GS to walk on")
    parser.add_argument("--check", metavar="ANSWERS", help="compare the lengths with these answers, and write no script")
    said = parser.parse_args()
    if said.check and not said.scenario:
        parser.error("--check needs the scenario")
    return said


def lines_of(name):
    return commands.bytes_of(name).decode("latin-1").splitlines()


def main():
    said = words()
    try:
        kinds = mapmaking.kinds_in(said)
        if said.check and kinds[0].clearance:
            raise NoMap("the optimal lengths are those of a class without a clearance, and --check compares the first one")
        rows = read_map(lines_of(said.map))
        queries = read_scenario(lines_of(said.scenario), rows, said.most) if said.scenario else []
        answers = contradictions.Answers(commands.bytes_of(said.check)) if said.check else None
    except (NoMap, commands.Unreadable) as it:
        commands.say(it)
        return 2
    if answers:
        return checked(rows, queries, answers)
    width, denied = len(rows[0]), [blocked(rows, it) for it in kinds]
    if said.scenario:
        pairs = [[cells_of(it, len(rows)) for it in queries] for _ in kinds]
    else:
        pairs = [mapmaking.drawn(it, width, said.paths, said.seed) for it in denied]
    for it in mapmaking.script(width, kinds, denied, pairs):
        print(it)
    if not any(pairs) and said.paths:
        commands.say("no class has a cell to walk on, so no path is asked for")
    return 0


if __name__ == "__main__":
    commands.run(main)
