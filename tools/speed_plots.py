#!/usr/bin/env python3
"""Draws the plots of docs/SPEED.md from its tables: `speed_plots.py` writes them, `--check` ends with 1 where one is not current.

A table is found by its heading and a column by its name, so that each figure stands in the page alone.
"""
import html
import math
import os
import re
import sys

sys.path.insert(0, os.path.dirname(os.path.abspath(__file__)))
import commands
import specs

PAGE = "docs/SPEED.md"
INK, QUIET, GRID, PAPER, BLUE, ORANGE = "#1b1f24", "#4b535d", "#dcd8cf", "#ffffff", "#0072b2", "#d55e00"
MARGIN, LETTER, LINE = 14, 7.5, 18  # of a picture; the width of a letter and the height of a line of words


# ---- the tables of the page


def table(heading):
    """The rows of the first table under a heading, each by the names of its columns. An empty cell means the one above it."""
    text = specs.read(PAGE).partition(f"\n## {heading}\n")[2].partition("\n## ")[0]
    lines = re.search(r"(?m)^\|.*\n\|[-| ]*\|\n((?:\|.*\n?)+)", text)
    if not lines:
        raise ValueError(f"{PAGE} has no table under the heading {heading}")
    names, _, *rows = (cells(it) for it in lines[0].splitlines())
    found = []
    for row in rows:
        above = found[-1] if found else {}
        found.append({name: cell or above.get(name, "") for name, cell in zip(names, row)})
    return found


def cells(line):
    return [it.strip() for it in line.strip().removeprefix("|").removesuffix("|").split("|")]


def cell(row, column):
    if column not in row:
        raise ValueError(f"{PAGE} has no column {column} in the table {' | '.join(row)}")
    return row[column]


def number(row, column):
    """The number in a column: of `512 by 512` the side."""
    found = re.match(r"\d[\d,]*(?:\.\d+)?", cell(row, column))
    if not found:
        raise ValueError(f"{PAGE} has no number in the column {column} of the row {' | '.join(row.values())}")
    return float(found[0].replace(",", ""))


# ---- lines over two logarithmic scales


class Curve:
    """Points that are joined, with the words that say what they are."""

    def __init__(self, words, ink, points, dashed=False):
        self.words, self.ink, self.points, self.dashed = words, ink, points, dashed

    def style(self):
        return f'stroke="{self.ink}" stroke-width="2" fill="none"' + (' stroke-dasharray="6 4"' if self.dashed else "")


class Scale:
    """A logarithmic scale: each mark has a place between two ends of the paper."""

    def __init__(self, marks, start, end):
        self.marks, self.start, self.end = marks, start, end

    def place(self, value):
        low, high = math.log(self.marks[0]), math.log(self.marks[-1])
        return self.start + (self.end - self.start) * (math.log(value) - low) / (high - low or 1)


def round_marks(values):
    """The numbers 1, 2 and 5 times a power of ten, from the last at or below the least value to the first that no value exceeds."""
    least, most = min(values), max(values)
    powers = range(math.floor(math.log10(least)), math.ceil(math.log10(most)) + 2)
    found = [float(f"{digit}e{power}") for power in powers for digit in (1, 2, 5)]
    first = max(it for it in found if it <= least)
    last = min(it for it in found if it >= most and it > first)
    return [it for it in found if first <= it <= last]


def text(x, y, words, anchor="start", ink=INK):
    return f'<text x="{x:.1f}" y="{y:.1f}" text-anchor="{anchor}" fill="{ink}">{html.escape(words)}</text>'


def stroke(x, y, right, down, style):
    return f'<line x1="{x:.1f}" y1="{y:.1f}" x2="{right:.1f}" y2="{down:.1f}" {style}/>'


def panel(place, size, marks, title, curves):
    """A field with a title, its marks along both axes, and curves."""
    (x, y), (width, height) = place, size
    across, up = Scale(marks[0], x, x + width), Scale(marks[1], y + height, y)
    out = [text(x + width / 2, y - 8, title, "middle")] if title else []
    for it in across.marks:
        out.append(stroke(across.place(it), y, across.place(it), y + height, f'stroke="{GRID}"'))
        out.append(text(across.place(it), y + height + LINE, f"{it:,g}", "middle", QUIET))
    for it in up.marks:
        out.append(stroke(x, up.place(it), x + width, up.place(it), f'stroke="{GRID}"'))
        out.append(text(x - 6, up.place(it) + 4.5, f"{it:,g}", "end", QUIET))
    for curve in curves:
        points = [(across.place(a), up.place(b)) for a, b in curve.points]
        out.append(f'<polyline points="{" ".join(f"{a:.1f},{b:.1f}" for a, b in points)}" {curve.style()}/>')
        out += [f'<circle cx="{a:.1f}" cy="{b:.1f}" r="3.5" fill="{PAPER if curve.dashed else curve.ink}" stroke="{curve.ink}"/>' for a, b in points]
    return out


def legend(y, curves):
    """A row that says what each curve is."""
    out, x = [], MARGIN
    for it in curves:
        out += [stroke(x, y - 4.5, x + 28, y - 4.5, it.style()), text(x + 34, y, it.words)]
        x += 34 + LETTER * len(it.words) + 2 * MARGIN
    return out


def plot(title, axes, panels):
    """A picture of panels side by side over the same scales, each a title and its curves."""
    curves = [it for _, its in panels for it in its]
    points = [it for curve in curves for it in curve.points]
    marks = sorted({a for a, _ in points}), round_marks([b for _, b in points])
    left, top, gap = MARGIN + LETTER * 6, MARGIN + 4 * LINE + 8, 48
    width, height = max(200, 440 // len(panels)), 220
    out = [text(MARGIN, MARGIN + LINE - 6, title), *legend(MARGIN + 2 * LINE, panels[0][1]), text(MARGIN, MARGIN + 3 * LINE + 4, axes[1], ink=QUIET)]
    for nth, (name, its) in enumerate(panels):
        x = left + nth * (width + gap)
        out += panel((x, top), (width, height), marks, name, its)
        out.append(text(x + width / 2, top + height + 2 * LINE, axes[0], "middle", QUIET))
    return picture(title, left + len(panels) * (width + gap) - gap + 2 * MARGIN, top + height + 2 * LINE + MARGIN, out)


# ---- bars


def bars(title, unit, kinds, rows):
    """A picture of bars from zero: under the words of each row one bar of each kind, with its value."""
    left = MARGIN + LETTER * max(len(words) for words, _ in rows)
    most, long, thick = max(max(values) for _, values in rows), 340, 15
    out, y = [text(MARGIN, MARGIN + LINE - 6, title)], MARGIN + 2 * LINE
    for nth, (words, ink) in enumerate(kinds):
        x = MARGIN + nth * (LETTER * len(kinds[0][0]) + 60)
        out += [f'<rect x="{x}" y="{y - 11}" width="24" height="12" fill="{ink}"/>', text(x + 32, y, words)]
    y += LINE
    for words, values in rows:
        out.append(text(left - 8, y + thick * len(kinds) / 2 + 4.5, words, "end"))
        for (_, ink), value in zip(kinds, values):
            out.append(f'<rect x="{left}" y="{y}" width="{max(1, long * value / most):.1f}" height="{thick - 2}" fill="{ink}"/>')
            out.append(text(left + long * value / most + 6, y + 11, f"{value:,g}", ink=QUIET))
            y += thick
        y += 10
    out.append(text(left, y + 8, unit, ink=QUIET))
    return picture(title, left + long + 60, y + 8 + MARGIN, out)


def picture(title, width, height, parts):
    head = f'<svg xmlns="http://www.w3.org/2000/svg" width="{width:.0f}" height="{height:.0f}" viewBox="0 0 {width:.0f} {height:.0f}" font-family="sans-serif" font-size="13">'
    return "\n".join([f"{head}\n<title>{html.escape(title)}</title>", f'<rect width="100%" height="100%" fill="{PAPER}"/>', *parts, "</svg>\n"])


# ---- the plots of the page


def growth():
    """An edit and a path by the side of the map."""
    rows = table("By the size of the map")
    curves = [
        Curve(words, ink, [(number(row, "navcells"), number(row, words)) for row in rows]) for words, ink in (("an edit", ORANGE), ("a path", BLUE))
    ]
    return plot("An edit and a path by the side of an open map", ("side of the map in navcells", "thousand instructions"), [("", curves)])


def turns():
    """The median and the 99th of turns by their paths, a panel for each map."""
    rows = table("Turns by the clock")
    kinds = [
        ("median, one worker", BLUE, False), ("median, four", BLUE, True), ("99th, one worker", ORANGE, False), ("99th, four", ORANGE, True),
    ]
    panels = []
    for name in dict.fromkeys(cell(row, "map") for row in rows):
        its = [row for row in rows if row["map"] == name]
        panels.append((name, [Curve(words, ink, [(number(row, "paths"), number(row, words)) for row in its], dashed) for words, ink, dashed in kinds]))
    return plot("Turns by the clock: half of them are below the median, and 99 of 100 below the 99th", ("paths in the turn", "milliseconds"), panels)


def beside_0ad():
    """A path here and in 0 A.D., by the map."""
    rows = [(cell(row, "map"), (number(row, "a path"), number(row, "0 A.D."))) for row in table("Compared with 0 A.D.")]
    return bars("A path, here and in 0 A.D. 0.0.26", "millions of instructions, mean of 200 paths", [("this program", BLUE), ("0 A.D.", ORANGE)], rows)


def made():
    """The plots by their names."""
    return {"speed_growth": growth(), "speed_turns": turns(), "speed_0ad": beside_0ad()}


def main(words):
    try:
        return specs.put_pictures(made, "speed_plots.py", words, __doc__)
    except ValueError as error:
        commands.say(error)
        return 2


if __name__ == "__main__":
    commands.run(lambda: main(sys.argv[1:]))
