#!/usr/bin/env python3
"""Draws the pictures of docs/SEARCH.md: `search_pictures.py` writes them, `--check` ends with 1 where one is not current."""
import math
import os
import sys

sys.path.insert(0, os.path.dirname(os.path.abspath(__file__)))
import commands
import specs

CELL, MARGIN, HEAD = 34, 10, 40
INK, GRID, FREE, WALL, WALK, OTHER, JUMP = "#1b1f24", "#cfc9bd", "#fbfaf7", "#4b535d", "#0072b2", "#d55e00", "#007a5a"


class Panel:
    """A small map in letters, rows from the north: `#` is blocked, `.` is free. Arrows and marks name cells as (column, row),
    from the north-west corner."""

    def __init__(self, title, rows, arrows=(), marks=()):
        self.title, self.rows, self.arrows, self.marks = title, rows, arrows, marks
        self.width, self.height = len(rows[0]) * CELL, len(rows) * CELL

    def text(self, x):
        out = [f'<g transform="translate({x} {HEAD})">']
        for j, row in enumerate(self.rows):
            for i, letter in enumerate(row):
                fill = WALL if letter == "#" else FREE
                out.append(f'<rect x="{i * CELL}" y="{j * CELL}" width="{CELL}" height="{CELL}" fill="{fill}" stroke="{GRID}"/>')
        out += [arrow(*it) for it in self.arrows]
        for (i, j), word, ink in self.marks:
            out.append(f'<circle cx="{middle(i)}" cy="{middle(j)}" r="10" fill="{FREE}" stroke="{ink}" stroke-width="2"/>')
            out.append(f'<text x="{middle(i)}" y="{middle(j) + 4.5}" text-anchor="middle" fill="{ink}">{word}</text>')
        words = [
            f'<text x="{x}" y="{14 + 15 * nth}" fill="{INK}">{line}</text>' for nth, line in enumerate(self.title.split("\n"))
        ]
        return "\n".join([*words, *out, "</g>"])


def middle(place):
    return place * CELL + CELL // 2


def arrow(start, end, ink, dashed=False):
    """An arrow between the middles of two cells, short of both."""
    (a, b), (c, d) = map(lambda cell: (middle(cell[0]), middle(cell[1])), (start, end))
    long = math.hypot(c - a, d - b)
    ux, uy = (c - a) / long, (d - b) / long
    a, b, c, d = a + 8 * ux, b + 8 * uy, c - 9 * ux, d - 9 * uy
    tip = [(c + 4 * ux, d + 4 * uy), (c - 4 * ux - 4 * uy, d - 4 * uy + 4 * ux), (c - 4 * ux + 4 * uy, d - 4 * uy - 4 * ux)]
    dash = ' stroke-dasharray="5 4"' if dashed else ""
    points = " ".join(f"{x:.1f},{y:.1f}" for x, y in tip)
    line = f'<line x1="{a:.1f}" y1="{b:.1f}" x2="{c:.1f}" y2="{d:.1f}" stroke="{ink}" stroke-width="2.5"{dash}/>'
    return f'{line}<polygon points="{points}" fill="{ink}"/>'


OPEN = ["...", "...", "..."]
SHUT = ["...", "...", "..#"]
NEIGHBOURS = [
    Panel("after a straight step\none natural neighbour", OPEN, [((1, 2), (1, 1), INK), ((1, 1), (1, 0), WALK)]),
    Panel("after a diagonal step\nthree natural neighbours", OPEN,
          [((0, 2), (1, 1), INK), ((1, 1), (1, 0), WALK), ((1, 1), (2, 1), WALK), ((1, 1), (2, 0), WALK)]),
    Panel("a wall beside the cell before\ntwo forced neighbours more", SHUT,
          [((1, 2), (1, 1), INK), ((1, 1), (1, 0), WALK), ((1, 1), (2, 1), OTHER), ((1, 1), (2, 0), OTHER)]),
]
EXCHANGE = [
    Panel("north, then east:\nthe diagonal is cheaper", ["..", ".."],
          [((0, 1), (0, 0), OTHER), ((0, 0), (1, 0), OTHER), ((0, 1), (1, 0), WALK, True)]),
    Panel("north, then north-east:\nthe same cost the other way", ["..", "..", ".."],
          [((0, 2), (0, 1), OTHER), ((0, 1), (1, 0), OTHER), ((0, 2), (1, 1), WALK, True), ((1, 1), (1, 0), WALK, True)]),
    Panel("a wall is in the way of the\ndashed steps: the turn is forced", ["..", "..", ".#"],
          [((0, 2), (0, 1), WALK), ((0, 1), (1, 0), WALK), ((0, 1), (1, 1), WALK)]),
]
JUMPS = [
    Panel("a diagonal run from S stops at J, since the run to\nthe east of J meets F, which has forced neighbours",
          [".............", ".........#...", ".............", ".............", "............."],
          [((0, 4), (1, 3), INK), ((1, 3), (2, 2), INK), ((2, 2), (10, 2), WALK), ((10, 2), (11, 1), OTHER), ((10, 2), (10, 1), OTHER)],
          [((0, 4), "S", INK), ((2, 2), "J", JUMP), ((10, 2), "F", JUMP)]),
]
PICTURES = {"neighbours": NEIGHBOURS, "exchange": EXCHANGE, "jumps": JUMPS}


def picture(panels):
    parts, x = [], MARGIN
    for panel in panels:
        parts.append(panel.text(x))
        x += max(panel.width, 210 if len(panels) > 1 else 0) + 2 * MARGIN
    width, height = x - MARGIN, HEAD + max(it.height for it in panels) + MARGIN
    head = f'<svg xmlns="http://www.w3.org/2000/svg" width="{width}" height="{height}" viewBox="0 0 {width} {height}" font-family="sans-serif" font-size="13">'
    return f'{head}\n<rect width="{width}" height="{height}" fill="#ffffff"/>\n' + "\n".join(parts) + "\n</svg>\n"


def made():
    """The pictures by their names."""
    return {name: picture(panels) for name, panels in PICTURES.items()}


if __name__ == "__main__":
    commands.run(lambda: specs.put_pictures(made, "search_pictures.py", sys.argv[1:], __doc__))
