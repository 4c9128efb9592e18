"""What the makers of scripts share: classes, terrain that is grown for them, paths by chance, and lines of a script."""
import argparse
import json
import random

import mapscript
from mapscript import SIDE, check, row_bits

MOST = 2048  # cells a side of a script's map


class NoMap(Exception):
    """Why a file does not become a map, in words."""


class Kind:
    """A class: its name, its raw clearance, and the word that says what it walks on, or an empty one."""

    def __init__(self, name, clearance, ground=""):
        self.name, self.clearance, self.ground = name, clearance, ground

    @property
    def room(self):
        """How many cells its terrain is grown by: its clearance, rounded up."""
        return -(-self.clearance // SIDE)


def kind_of(text):
    """The class that a word NAME:CLEARANCE or NAME:CLEARANCE:GROUND names."""
    name, _, rest = text.partition(":")
    clearance, _, ground = rest.partition(":")
    try:
        return Kind(check.class_name(name), check.decimal(clearance, 0, 64 * SIDE), ground)
    except check.BadLine:
        raise argparse.ArgumentTypeError(f"{text} is not NAME:CLEARANCE with a name of letters, digits, - or _, and a clearance from 0 to 64") from None


def add_words(parser, ground):
    """The words for classes and paths; `ground` says how a class names what it walks on."""
    about = f"a class that keeps so far from obstructions, and from what it can't walk on, by whole cells; may stand several times (walker:0). {ground}"
    parser.add_argument("--class", dest="kinds", action="append", type=kind_of, metavar="NAME:CLEARANCE", help=about)
    parser.add_argument("--paths", type=int, default=20, metavar="N", help="so many random paths of each class, between cells that it can walk on (20)")
    parser.add_argument("--seed", type=int, default=1, help="which random paths (1)")


def kinds_in(said):
    """The classes that the words name, or the one that stands for none."""
    kinds = said.kinds or [Kind("walker", 0)]
    if len({it.name for it in kinds}) < len(kinds) or len(kinds) > 16:
        raise NoMap("a script has at most 16 classes, each with a name of its own")
    return kinds


def grown(rows, by, width):
    """Rows of blocked cells, grown by whole cells along rows and then along columns."""
    full, wide = row_bits(0, width - 1), []
    for row in rows:
        bits = row
        for n in range(1, by + 1):
            bits |= row << n | row >> n
        wide.append(bits & full)
    if by == 0:
        return wide
    found = []
    for j in range(len(rows)):
        bits = 0
        for row in wide[max(0, j - by):j + by + 1]:
            bits |= row
        found.append(bits)
    return found


def free_cells(rows, width):
    """The cells, as column and row from the south, that are not blocked: those of the northernmost row first."""
    texts = [bin(bits | 1 << width)[:2:-1] for bits in rows]
    return [(i, j) for j in reversed(range(len(rows))) for i, it in enumerate(texts[j]) if it == "0"]


def drawn(rows, width, count, seed):
    """So many pairs of free cells, drawn from a seed; none where no cell is free."""
    free, draw = free_cells(rows, width), random.Random(seed)
    return [(draw.choice(free), draw.choice(free)) for _ in range(count if free else 0)]


# ---- lines


def line(value):
    return json.dumps(value, separators=(",", ":"))


def decimal(raw):
    """A raw number as the shortest decimal that has exactly its value."""
    whole = f"{abs(raw) / SIDE:.16f}".rstrip("0").rstrip(".")
    return "-" + whole if raw < 0 else whole


def map_lines(width, height, callers, classes, base):
    """The map line and the base lines; `classes` are names with raw clearances."""
    named = [{"name": name, "clearance": decimal(raw)} for name, raw in classes]
    yield line({"version": 3, "size": [width, height], "callers": callers, "classes": named})
    for it in base:
        yield line({"base": [it]})


def path_line(name, start, goal):
    """The path line of caller 0 between the middles of two cells."""
    (a, b), (c, d) = start, goal
    return line({"caller": 0, "path": name, "from": [f"{a}.5", f"{b}.5"], "goal": {"point": [f"{c}.5", f"{d}.5"]}})


def script(width, kinds, rows, pairs):
    """The lines of a script with the blocked rows and the pairs of cells of each class, all paths in one turn."""
    yield from map_lines(width, len(rows[0]), 1, [(it.name, it.clearance) for it in kinds], mapscript.rectangles(rows, width))
    for kind, mine in zip(kinds, pairs):
        for start, goal in mine:
            yield path_line(kind.name, start, goal)
    yield line({"end": 1})
