#!/usr/bin/env python3
"""Predicts the answers to scripts from docs/FORMAT.md alone, and compares a program with them.

    check.py PROGRAM [COUNT [SEED]]   makes COUNT scripts (100), runs `PROGRAM` with each of its words that
                                      answer turn by turn on each and compares
    check.py --predict < SCRIPT       writes the answers to a script, and ends with its status
    check.py --WORD < SCRIPT          the same for another word than `replay`, with the line that it writes after each path
    check.py --make FOLDER COUNT SEED writes COUNT scripts and their answers, as N, N.args and N.stdout

The status is 0 where all agree. Only Python's own library is used.
"""
import heapq
import itertools
import json
import os
import random
import re
import subprocess
import sys

SIDE = 65536  # the raw side of a navcell
CHUNK = 96
NEWEST = 3  # version of the script
EDITS = ("add", "remove", "move")
GOALS = {"point": 2, "circle": 3, "not-circle": 3, "square": 6, "not-square": 6}  # how many decimals each has
NOTES = {"profile": "opened", "flow": "flow", "smooth": "smooth"}  # how the line begins that a word writes after each path
WORDS = ("replay", *NOTES)
# in the order in which the chosen walk prefers them
STEPS = {"N": (0, 1), "E": (1, 0), "S": (0, -1), "W": (-1, 0)}
STEPS.update({"NE": (1, 1), "SE": (1, -1), "SW": (-1, -1), "NW": (-1, 1)})


class BadLine(Exception):
    pass


def needs(holds):
    if not holds:
        raise BadLine


# ---- values of lines


def decimal(value, low=-(2**31), high=2**31 - 1):
    needs(isinstance(value, str))
    found = re.fullmatch(r"(-?)(0|[1-9][0-9]{0,4})(?:\.([0-9]{1,16}))?", value, re.ASCII)
    needs(found)
    sign, whole, places = found.groups()
    places = places or ""
    raw = int(whole + places) * SIDE // 10 ** len(places)
    raw = -raw if sign else raw
    needs(low <= raw <= high)
    return raw


def decimals(value, count):
    needs(isinstance(value, list) and len(value) == count)
    return [decimal(it) for it in value]


def whole(value, high=2**64 - 1, low=0):
    needs(type(value) is int and low <= value <= high)
    return value


def class_name(value):
    needs(isinstance(value, str) and re.fullmatch(r"[A-Za-z0-9_-]{1,64}", value, re.ASCII))
    return value


def has_keys(value, *keys):
    return isinstance(value, dict) and set(value) == set(keys)


DEEPEST = 8  # how deep the arrays and objects of a line may nest
STRING = re.compile(rb'"(?:[^"\\]|\\.)*(?:"|\\?\Z)')
LONE_SURROGATE = re.compile(rb"\\u[dD][89abAB]..(?!\\u[dD][c-fC-F])|(?<!\\u[dD][89abAB]..)\\u[dD][c-fC-F]")


def in_range(text):
    needs(abs(float(text)) != float("inf"))
    return text


def is_deep(line):
    """Whether more than DEEPEST arrays and objects are open somewhere in the line."""
    depth = 0
    for mark in re.findall(rb"[\[\]{}]", STRING.sub(b"", line)):
        depth = depth + 1 if mark in b"[{" else max(depth - 1, 0)
        if depth > DEEPEST:
            return True
    return False


def value_of(line):
    def refused(_):
        raise ValueError

    def integer(text):
        return None if text.startswith("-") else int(text)  # one with a sign is no whole number

    needs(not is_deep(line))
    if b"\\u" in line:
        needs(not LONE_SURROGATE.search(line.replace(b"\\\\", b"")))
    try:
        text = line.decode("utf-8")
        if re.search(rb"[eE]|[0-9]{300}", line):
            json.loads(text, parse_int=in_range, parse_float=in_range, parse_constant=refused)
        return json.loads(text, parse_int=integer, parse_constant=refused)
    except (ValueError, RecursionError):
        raise BadLine from None


class Map:
    def __init__(self, value):
        needs(has_keys(value, "version", "size", "callers", "classes"))
        self.version = whole(value["version"], NEWEST, 1)
        size = value["size"]
        needs(isinstance(size, list) and len(size) == 2)
        self.w, self.h = (whole(it, 2048, 1) for it in size)
        self.callers = whole(value["callers"], 64, 1)
        classes = value["classes"]
        needs(isinstance(classes, list) and 1 <= len(classes) <= 16)
        needs(all(has_keys(it, "name", "clearance") for it in classes))
        self.classes = {class_name(it["name"]): decimal(it["clearance"], 0, 64 * SIDE) for it in classes}
        needs(len(self.classes) == len(classes))
        self.base = []

    def add_base(self, value):
        needs(isinstance(value, list))
        for it in value:
            needs(isinstance(it, list) and len(it) == 5)
            i0, j0, i1, j1, mask = map(whole, it)
            needs(i0 <= i1 < self.w and j0 <= j1 < self.h and mask <= 65535)
            self.base.append((i0, j0, i1, j1, mask))

    def holds(self, x, z):
        return 0 <= x < SIDE * self.w and 0 <= z < SIDE * self.h

    def goal(self, value):
        needs(isinstance(value, dict) and len(value) == 1)
        (kind, numbers), = value.items()
        if kind == "obstruction":
            needs(self.version >= 3 and isinstance(numbers, list) and len(numbers) == 2)
            return kind, [whole(numbers[0], 2**32 - 1), decimal(numbers[1])]
        needs(kind in GOALS)
        return kind, decimals(numbers, GOALS[kind])

    def post(self, value):
        """The caller, the kind and the numbers of a post line."""
        needs(isinstance(value, dict) and "caller" in value)
        caller = whole(value["caller"], self.callers - 1)
        keys = set(value) - {"caller"}
        mask = {"mask"} if self.version > 1 else set()
        for shape, count in (("unit", 3), ("square", 6)):
            if keys == {"add", shape} | mask:
                numbers = decimals(value[shape], count)
                if shape == "unit":
                    numbers = numbers[:2] + [SIDE, 0] + numbers[2:] * 2
                mask = whole(value.get("mask", 65535), 65535)
                return caller, "add", whole(value["add"], 2**32 - 1), numbers, mask
        if keys == {"remove"}:
            return caller, "remove", whole(value["remove"], 2**32 - 1)
        if keys == {"move", "to"} and self.version >= 3:
            return caller, "move", whole(value["move"], 2**32 - 1), decimals(value["to"], 2)
        if keys == {"path", "from", "goal"}:
            return caller, "path", class_name(value["path"]), decimals(value["from"], 2), self.goal(value["goal"])
        if keys == {"region", "at"}:
            return caller, "region", class_name(value["region"]), decimals(value["at"], 2)
        raise BadLine


# ---- squares


def is_vector(ux, uz):
    return abs(ux * ux + uz * uz - 2**32) <= 2**25


def turned(square, px, pz):
    """How far a way leads along and across a square's vector."""
    ux, uz = square[2:4]
    return px * ux + pz * uz, pz * ux - px * uz


def from_middle(numbers, cell):
    return SIDE * cell[0] + SIDE // 2 - numbers[0], SIDE * cell[1] + SIDE // 2 - numbers[1]


def squared_past(square, cell):
    du, dv = turned(square, *from_middle(square, cell))
    a, b = max(abs(du) - SIDE * square[4], 0), max(abs(dv) - SIDE * square[5], 0)
    return a * a + b * b


class Goal:
    def __init__(self, kind, numbers):
        self.kind, self.numbers = kind, numbers

    def is_well_formed(self):
        lengths = self.numbers[4:] if len(self.numbers) == 6 else self.numbers[2:]
        vector_is_good = len(self.numbers) < 6 or is_vector(*self.numbers[2:4])
        return vector_is_good and all(0 <= it <= 4096 * SIDE for it in lengths)

    def corners(self, cell):
        x, z = self.numbers[:2]
        return [(SIDE * i - x, SIDE * j - z) for i in (cell[0], cell[0] + 1) for j in (cell[1], cell[1] + 1)]

    def has(self, cell):
        n, (px, pz) = self.numbers, from_middle(self.numbers, cell)
        if self.kind == "point":
            return cell == (n[0] // SIDE, n[1] // SIDE)
        if self.kind == "circle":
            ex, ez = max(abs(px) - SIDE // 2, 0), max(abs(pz) - SIDE // 2, 0)
            return ex * ex + ez * ez <= n[2] * n[2]
        if self.kind == "not-circle":
            return any(x * x + z * z >= n[2] * n[2] for x, z in self.corners(cell))
        ux, uz, hw, hh = n[2:]
        if self.kind == "not-square":
            ways = [turned(n, x, z) for x, z in self.corners(cell)]
            return any(abs(du) >= SIDE * hw or abs(dv) >= SIDE * hh for du, dv in ways)
        du, dv = turned(n, px, pz)
        half, squared, both = SIDE // 2, ux * ux + uz * uz, abs(ux) + abs(uz)
        return (
            abs(px) * squared <= half * squared + SIDE * (hw * abs(ux) + hh * abs(uz))
            and abs(pz) * squared <= half * squared + SIDE * (hw * abs(uz) + hh * abs(ux))
            and abs(du) <= SIDE * hw + half * both
            and abs(dv) <= SIDE * hh + half * both
        )

    def remoteness(self, cell):
        n, (px, pz) = self.numbers, from_middle(self.numbers, cell)
        if self.kind == "point":
            return (cell[0] - n[0] // SIDE) ** 2 + (cell[1] - n[1] // SIDE) ** 2
        if self.kind == "circle":
            return px * px + pz * pz
        if self.kind == "not-circle":
            return -(px * px + pz * pz)
        if self.kind == "square":
            return squared_past(n, cell)
        du, dv = turned(n, px, pz)
        return max(0, min(SIDE * n[4] - abs(du), SIDE * n[5] - abs(dv)))

    def lines(self, axis, count):
        """The columns (axis 0) or rows (axis 1) of the goal's box on a map that has so many."""
        n, at = self.numbers, self.numbers[axis]
        if self.kind == "point":
            return [at // SIDE]
        if self.kind.startswith("not-"):
            return range(count)
        if self.kind == "circle":
            return [i for i in range(count) if SIDE * i <= at + n[2] and SIDE * (i + 1) >= at - n[2]]
        along, across = (abs(n[2]), abs(n[3])) if axis == 0 else (abs(n[3]), abs(n[2]))
        squared = along * along + across * across
        far = SIDE // 2 * squared + SIDE * (n[4] * along + n[5] * across)
        return [i for i in range(count) if abs(SIDE * i + SIDE // 2 - at) * squared <= far]

    def box(self, w, h):
        columns, rows = self.lines(0, w), self.lines(1, h)
        return columns[0], rows[0], columns[-1], rows[-1]


# ---- the cells of one class


def in_order(cell):
    return cell[1], cell[0]


def chunk_of(cell):
    return cell[0] // CHUNK, cell[1] // CHUNK


def in_area_order(cell):
    return cell[1] // CHUNK, cell[0] // CHUNK, cell[1], cell[0]


class Cells:
    """The passable cells of a class, with their regions, edges and areas."""

    def __init__(self, map_, standing, number, clearance):
        self.sides = map_.w, map_.h
        blocking = [square for square, mask in standing.values() if mask >> number & 1]
        base = [it for it in map_.base if it[4] >> number & 1]
        self.free = {
            (i, j)
            for i in range(map_.w)
            for j in range(map_.h)
            if not any(it[0] <= i <= it[2] and it[1] <= j <= it[3] for it in base)
            and not any(squared_past(it, (i, j)) <= (SIDE * clearance) ** 2 for it in blocking)
        }
        self.regions = self.numbered(in_area_order, lambda a, b: chunk_of(a) == chunk_of(b), per_chunk=True)
        self.areas = self.numbered(in_area_order, lambda a, b: True, per_chunk=False)
        self.edges = {
            (chunk_of(cell), chunk_of(there), self.regions[cell], self.regions[there])
            for cell in self.free
            for there in ((cell[0] + 1, cell[1]), (cell[0], cell[1] + 1))
            if there in self.free and chunk_of(there) != chunk_of(cell)
        }
        self.region_count = len({(chunk_of(cell), number) for cell, number in self.regions.items()})
        self.area_count = len(set(self.areas.values()))

    def numbered(self, order, joins, per_chunk):
        """Numbers groups of cells that straight steps join, by the first cell of each."""
        numbers, counts = {}, {}
        for first in sorted(self.free, key=order):
            if first in numbers:
                continue
            where = chunk_of(first) if per_chunk else None
            counts[where] = counts.get(where, 0) + 1
            numbers[first], waiting = counts[where], [first]
            while waiting:
                cell = waiting.pop()
                for name in "NESW":
                    there = self.step(cell, name)
                    if there and there not in numbers and joins(cell, there):
                        numbers[there] = counts[where]
                        waiting.append(there)
        return numbers

    def step(self, cell, name):
        """The cell to which a legal step leads from a passable one."""
        di, dj = STEPS[name]
        beside = [(cell[0] + di, cell[1]), (cell[0], cell[1] + dj), (cell[0] + di, cell[1] + dj)]
        return beside[2] if all(it in self.free for it in beside if it != cell) else None

    def distances(self, *starts):
        found, waiting = {}, [(0, start) for start in starts]
        while waiting:
            cost, cell = heapq.heappop(waiting)
            if cell in found:
                continue
            found[cell] = cost
            for name in STEPS:
                there = self.step(cell, name)
                if there and there not in found:
                    heapq.heappush(waiting, (cost + cost_of(name), there))
        return found

    def start_cell(self, x, z):
        cell = (x // SIDE, z // SIDE)
        if cell in self.free:
            return cell

        def rank(cell):
            px, pz = from_middle((x, z), cell)
            return px * px + pz * pz, in_order(cell)

        return min(self.free, key=rank)

    def path(self, start, goal, word):
        """The path to a goal, and under another word than `replay` in a second line what that tells of it."""
        distance = self.distances(start)
        hit = [cell for cell in distance if goal.has(cell)]
        if hit:
            end = min(hit, key=lambda cell: (distance[cell], in_order(cell)))
        else:
            end = min(distance, key=lambda cell: (goal.remoteness(cell), in_order(cell)))
        points = self.waypoints(distance, start, end)
        numbers = [*start, *end, "goal" if hit else "near", distance[end], len(points)]
        text = " ".join(["path", *map(str, numbers), *(f"{i}.5,{j}.5" for i, j in points)])
        if word == "profile":
            box = goal.box(*self.sides) if hit else (*end, *end)
            return f"{text}\nopened {JumpStates(self, set(hit or [end])).opened(start, box, distance[end])}"
        if word == "flow":
            return f"{text}\nflow {self.flow(start, hit or [end])}"
        if word == "smooth":
            kept = self.smoothed([start, *points])
            return f"{text}\n" + " ".join(["smooth", str(len(kept)), *(f"{i}.5,{j}.5" for i, j in kept)])
        return text

    def flow(self, start, targets):
        """The first step of the start in the flow field of the targets, and what the field has in all."""
        far = self.distances(*targets)
        lead = (
            name
            for name in STEPS
            if (there := self.step(start, name)) and far[there] + cost_of(name) == far[start]
        )
        return f"{next(lead, '-')} {len(far)} {max(far.values())} {sum(far.values())}"

    def is_clear(self, a, b):
        """Whether each cell that the segment between the middles of two cells touches is passable."""
        di, dj = b[0] - a[0], b[1] - a[1]
        return all(
            (a[0] + ei, a[1] + ej) in self.free
            for ei in range(min(0, di), max(0, di) + 1)
            for ej in range(min(0, dj), max(0, dj) + 1)
            if 2 * abs(di * ej - dj * ei) <= abs(di) + abs(dj)
        )

    def smoothed(self, places):
        """The fewest of a start and its waypoints with clear segments between them, without the start."""
        rest = {len(places) - 1: []}
        for at in range(len(places) - 2, -1, -1):
            ends = [k for k in range(at + 1, min(at + 64, len(places) - 1) + 1) if self.is_clear(places[at], places[k])]
            best = min(ends, key=lambda k: (len(rest[k]), -k))
            rest[at] = [best, *rest[best]]
        return [places[k] for k in rest[0]]

    def waypoints(self, distance, start, end):
        """The waypoints of the chosen walk, which is found backwards from its end."""
        points, cell, follows = [], end, None
        while cell != start:
            enters = {}
            for name, (di, dj) in STEPS.items():
                before = (cell[0] - di, cell[1] - dj)
                is_legal = before in distance and self.step(before, name) == cell
                if is_legal and distance[before] + cost_of(name) == distance[cell]:
                    enters[name] = before
            name = follows if follows in enters and len(follows) == 1 else next(it for it in STEPS if it in enters)
            if name != follows:
                points.insert(0, cell)
            cell, follows = enters[name], name
        return points


def cost_of(name):
    return 65536 if len(name) == 1 else 92682


def octile(cell, box):
    dx = max(box[0] - cell[0], cell[0] - box[2], 0)
    dz = max(box[1] - cell[1], cell[1] - box[3], 0)
    return 92682 * min(dx, dz) + 65536 * (max(dx, dz) - min(dx, dz))


def beside(name):
    """The straight directions to the two sides of a straight one, each with the diagonal one between."""
    di, dj = STEPS[name]
    ways = {way: name for name, way in STEPS.items()}
    return [(ways[a, b], ways[di + a, dj + b]) for a, b in ((dj, -di), (-dj, di))]


class JumpStates:
    """The jump states of a path over the cells of a class to these targets."""

    def __init__(self, cells, targets):
        self.cells, self.targets, self.known = cells, targets, {}

    def forced(self, cell, name):
        """The forced successors of a cell that was come to by a straight step."""
        di, dj = STEPS[name]
        found = []
        for side, between in beside(name):
            a, b = STEPS[side]
            if (cell[0] - di + a, cell[1] - dj + b) not in self.cells.free:
                found += [way for way in (side, between) if self.cells.step(cell, way)]
        return found

    def successors(self, cell, name):
        if name is None:
            ways = STEPS
        elif len(name) == 1:
            ways = [name, *self.forced(cell, name)]
        else:
            ways = [name, *name]
        return [way for way in ways if self.cells.step(cell, way)]

    def run(self, cell, name):
        """The stop of the run from a cell, if it has one, with the cost of the run."""
        if (cell, name) not in self.known:
            self.known[cell, name] = self.first_stop(cell, name)
        return self.known[cell, name]

    def first_stop(self, cell, name):
        cost = 0
        while there := self.cells.step(cell, name):
            cell, cost = there, cost + cost_of(name)
            aside = self.forced(cell, name) if len(name) == 1 else any(self.run(cell, part) for part in name)
            if cell in self.targets or aside:
                return cell, cost
        return None

    def opened(self, start, box, most):
        found, waiting = {}, [(0, start, "")]
        while waiting:
            cost, cell, name = heapq.heappop(waiting)
            if (cell, name) in found:
                continue
            found[cell, name] = cost
            for way in self.successors(cell, name or None):
                stop = self.run(cell, way)
                if stop:
                    heapq.heappush(waiting, (cost + stop[1], stop[0], way))
        return sum(cost + octile(cell, box) <= most for (cell, _), cost in found.items())


# ---- turns


def edited(map_, standing, post):
    """Makes an edit, and gives its reply."""
    kind, number = post[1], post[2]
    if kind == "add":
        square, mask = post[3:]
        fits = map_.holds(*square[:2]) and is_vector(*square[2:4]) and all(0 <= it <= 256 * SIDE for it in square[4:])
        if not fits:
            return "refused bad-shape"
        if number in standing:
            return "refused duplicate-id"
        if len(standing) == 65536:
            return "refused store-full"
        standing[number] = square, mask
        return f"added {number}"
    if number not in standing:
        return "refused unknown-id"
    if kind == "remove":
        del standing[number]
        return f"removed {number}"
    if not map_.holds(*post[3]):
        return "refused bad-shape"
    square, mask = standing[number]
    standing[number] = post[3] + square[2:], mask
    return f"moved {number}"


def answered(map_, standing, cells, post, word):
    """The reply to a path or region line."""
    name, (x, z) = post[2:4]
    if name not in map_.classes:
        return "refused unknown-class"
    if not map_.holds(x, z):
        return "refused start-outside"
    mine = cells[list(map_.classes).index(name)]
    if post[1] == "region":
        cell = (x // SIDE, z // SIDE)
        return "region {} {} {} {}".format(*chunk_of(cell), mine.regions.get(cell, 0), mine.areas.get(cell, 0))
    kind, numbers = post[4]
    if kind == "obstruction":
        number, distance = numbers
        if not 0 <= distance <= 3840 * SIDE:
            return "refused bad-shape"
        if number not in standing:
            return "refused unknown-id"
        square = standing[number][0]
        goal = Goal("square", square[:4] + [it + distance for it in square[4:]])
    else:
        goal = Goal(kind, numbers)
        if not goal.is_well_formed():
            return "refused bad-shape"
        if not map_.holds(*numbers[:2]):
            return "refused goal-outside"
    if not mine.free:
        return "nowhere"
    return mine.path(mine.start_cell(x, z), goal, word)


def all_cells(map_, standing):
    return [Cells(map_, standing, number, clearance) for number, clearance in enumerate(map_.classes.values())]


class Service:
    """A map, what stands on it, and the turn that is being read."""

    def __init__(self, map_, word):
        self.map, self.word, self.standing, self.before = map_, word, {}, None
        self.turn, self.posts = 1, []

    def take(self, value):
        """Takes the value of a line, and gives the answers that it brings."""
        if self.before is None and has_keys(value, "base"):
            self.map.add_base(value["base"])
            return []
        if self.before is None:
            self.before = all_cells(self.map, {})
        if not has_keys(value, "end"):
            self.posts.append(self.map.post(value))
            return []
        needs(whole(value["end"]) == self.turn)
        return self.answers()

    def answers(self):
        lists = [[post for post in self.posts if post[0] == caller] for caller in range(self.map.callers)]
        replies = [
            [edited(self.map, self.standing, post) if post[1] in EDITS else None for post in mine] for mine in lists
        ]
        cells = all_cells(self.map, self.standing)
        changed = sum(len({chunk_of(it) for it in old.free ^ new.free}) for old, new in zip(self.before, cells))
        regions, edges = sum(it.region_count for it in cells), sum(len(it.edges) for it in cells)
        areas = sum(it.area_count for it in cells)
        out = [f"turn {self.turn} regions {regions} edges {edges} areas {areas} relabelled {changed}"]
        for caller, (mine, said) in enumerate(zip(lists, replies)):
            for place, post in enumerate(mine):
                reply = said[place] or answered(self.map, self.standing, cells, post, self.word)
                out += [f"{caller} {place} {line}" for line in reply.split("\n")]
        self.before, self.posts, self.turn = cells, [], self.turn + 1
        return out


def predicted(script, word="replay"):
    """The answers to a script under a word, and the status."""
    lines = script.split(b"\n")
    if lines[-1] == b"":
        lines.pop()
    out, service, number, status = [], None, 0, 0
    try:
        for number, line in enumerate(lines, 1):
            value = value_of(line)
            if service is None:
                service = Service(Map(value), word)
            else:
                out += service.take(value)
        number += 1
        needs(service and not service.posts)
    except BadLine:
        out.append(f"bad line {number}")
        status = 3
    return "".join(f"{line}\n" for line in out).encode(), status


# ---- scripts by chance


class Maker:
    def __init__(self, seed):
        self.rng = random.Random(seed)
        self.w, self.h, self.added = 1, 1, []

    def number(self, low, high, beyond=0.01):
        """A decimal from low up to high, and now and then one past them."""
        rng = self.rng
        if rng.random() < beyond:
            return f"{rng.choice([low - 0.5, high + 0.5, -high, high]):.1f}"
        count = rng.randrange(int(low), int(high))
        value = rng.choice([rng.uniform(low, high), count, count + 0.5])
        return f"{value:.{rng.choice([1, 2, 5, 16])}f}" if value != int(value) else str(value)

    def point(self):
        return [self.number(0, self.w), self.number(0, self.h)]

    def vector(self):
        rng = self.rng
        if rng.random() < 0.03:
            return ["0.5", "0.5"]
        across = [["1", "0"], ["0", "-1"], ["0.8", "0.6"], ["-0.6", "0.8"], ["0.7071", "0.7071"], ["0.5", "-0.866"]]
        # some are not quite of length 1
        return list(rng.choice(across + [["1.0035", "0"], ["0.998", "0"], ["0.0283", "0.9966"]]))

    def post(self, callers, names, version):
        rng = self.rng
        caller = {"caller": rng.randrange(callers)}
        kind = rng.choice(["add", "add", "remove", "move", "path", "path", "path", "path", "region"])
        identity = rng.randrange(9)
        if kind != "add" and self.added and rng.random() < 0.8:
            identity = rng.choice(self.added)
        if kind == "add":
            if rng.random() < 0.5:
                shape = {"unit": [*self.point(), self.number(0, 2)]}
            else:
                shape = {"square": [*self.point(), *self.vector(), self.number(0, 3), self.number(0, 3)]}
            mask = {"mask": rng.choice([0, 1, 2, 3, 7, 65535])} if version > 1 else {}
            self.added.append(identity)
            return {**caller, "add": identity, **shape, **mask}
        if kind == "remove" or (kind == "move" and version < 3):
            return {**caller, "remove": identity}
        if kind == "move":
            return {**caller, "move": identity, "to": self.point()}
        name = rng.choice(names) if rng.random() < 0.97 else "nobody"
        if kind == "region":
            return {**caller, "region": name, "at": self.point()}
        goal = rng.choice([*GOALS, "obstruction"] if version >= 3 else [*GOALS])
        if goal == "point":
            numbers = self.point()
        elif goal == "obstruction":
            numbers = [identity, rng.choice([self.number(0, 3), self.number(0, 3), "3840.5"])]
        elif "circle" in goal:
            numbers = [*self.point(), self.number(0, 4)]
        else:
            numbers = [*self.point(), *self.vector(), self.number(0, 4), self.number(0, 4)]
        return {**caller, "path": name, "from": self.point(), "goal": {goal: numbers}}

    def script(self):
        rng = self.rng
        small, long, flat = rng.randint(1, 16), rng.randint(95, 200), rng.randint(1, 6)
        shapes = [(small, rng.randint(1, 16)), (small, rng.randint(1, 16)), (long, flat), (flat, long)]
        self.w, self.h = rng.choice(shapes)
        self.added = []
        version, callers = rng.randint(1, NEWEST), rng.randint(1, 3)
        names = ["infantry", "siege", "ship"][: rng.randint(1, 3)]
        classes = [{"name": name, "clearance": rng.choice(["0", "0.25", "0.5", "0.75", "1.2", "2"])} for name in names]
        lines = [{"version": version, "size": [self.w, self.h], "callers": callers, "classes": classes}]
        for _ in range(rng.choice([0, 1, 1, 2])):
            rects = []
            for _ in range(rng.randint(0, 1 + self.w * self.h // 8)):
                i, j = rng.randrange(self.w), rng.randrange(self.h)
                east, north = rng.choice([(0, 0), (0, 0), (rng.randint(0, 4), 0), (0, rng.randint(0, 4))])
                rects.append([i, j, min(i + east, self.w - 1), min(j + north, self.h - 1), rng.choice([1, 2, 3, 5, 7])])
            if rng.random() < 0.03:
                rects.append([0, 0, self.w - 1, self.h - 1, 1])
            lines.append({"base": rects})
        for turn in range(1, rng.randint(2, 5)):
            lines += [self.post(callers, names, version) for _ in range(rng.randint(0, 14))]
            lines.append({"end": turn})
        if rng.random() < 0.15:
            bad = [{"end": 99}, {"caller": 0}, {"caller": 64, "remove": 1}, {"base": []}, 7]
            bad += [{"caller": 0, "remove": 1.0}, {"caller": 0, "region": "siege", "at": [1, 2]}]
            lines.insert(rng.randint(1, len(lines)), rng.choice(bad))
        texts = [json.dumps(it, separators=rng.choice([(",", ":"), (", ", ": ")])) for it in lines]
        if rng.random() < 0.05:
            texts.pop()
        return "".join(f"{it}\n" for it in texts).encode()


def main(words):
    if len(words) == 1 and words[0] in ("--predict", *(f"--{it}" for it in NOTES)):
        text, status = predicted(sys.stdin.buffer.read(), words[0][2:].replace("predict", "replay"))
        sys.stdout.buffer.write(text)
        return status
    if len(words) == 4 and words[0] == "--make" and words[2].isdecimal() and words[3].isdecimal():
        maker = Maker(int(words[3]))
        os.makedirs(words[1], exist_ok=True)
        for k in range(int(words[2])):
            script = maker.script()
            for end, data in (("", script), (".args", b"replay\n"), (".stdout", predicted(script)[0])):
                with open(f"{words[1]}/{k}{end}", "wb") as file:
                    file.write(data)
        return 0
    if not 1 <= len(words) <= 3 or words[0].startswith("-") or not all(it.isdecimal() for it in words[1:]):
        is_asked = words in (["-h"], ["--help"])
        print(__doc__, file=sys.stdout if is_asked else sys.stderr)
        return 0 if is_asked else 2
    count, seed = int(words[1]) if len(words) > 1 else 100, int(words[2]) if len(words) > 2 else 1
    maker, differ, posts = Maker(seed), 0, 0
    for k, word in itertools.product(range(count), WORDS):
        script = maker.script() if word == "replay" else script
        ran = subprocess.run([words[0], word], input=script, capture_output=True)
        wanted, status = predicted(script, word)
        posts += wanted.count(b"\n")
        if (ran.stdout, ran.returncode) == (wanted, status):
            continue
        differ += 1
        print(f"script {k} of seed {seed}, {word}: status {ran.returncode}, predicted {status}")
        print(ran.stderr.decode(errors="replace"), end="", flush=True)
        sys.stdout.buffer.write(script)
        answers = itertools.zip_longest(ran.stdout.decode().splitlines(), wanted.decode().splitlines())
        got, want = next((pair for pair in answers if pair[0] != pair[1]), ("the same", "the same"))
        print(f"answered  {got}\npredicted {want}")
    runs = len(WORDS) * count
    print(f"{runs - differ} of {runs} runs agree, with {posts} lines of answers")
    return 1 if differ else 0


if __name__ == "__main__":
    try:
        ended = main(sys.argv[1:])
        sys.stdout.flush()
    except OSError as it:
        print(f"check.py: {it}", file=sys.stderr)
        os._exit(5)  # (what waits to be written can't be)
    sys.exit(ended)
