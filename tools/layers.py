#!/usr/bin/env python3
"""Draws the layers of crates.txt into docs/ARCHITECTURE.md, between the two marks of the page.

A layer is the crates below one comment line. `layers.py --check` writes nothing and ends with 1 where the page is not current.
"""
import os
import re
import sys
import textwrap

sys.path.insert(0, os.path.dirname(os.path.abspath(__file__)))
import commands
import specs

PAGE = "docs/ARCHITECTURE.md"
FIRST, LAST = "<!-- made by tools/layers.py: begin -->\n", "<!-- made by tools/layers.py: end -->\n"


def layers():
    """The layers from the bottom up: a name, its crates, and what these stand on."""
    found = []
    for line in specs.read("crates.txt").splitlines():
        if line.startswith("#"):
            found.append((line[1:].strip(), [], set()))
        elif line.strip():
            name, _, used = line.partition(":")
            found[-1][1].append(name.split()[0])
            found[-1][2].update(used.split())
    return found


def drawing():
    all_layers = layers()
    place = {name: number for number, (_, names, _) in enumerate(all_layers, 1) for name in names}
    lines = []
    for number, (title, names, used) in reversed([*enumerate(all_layers, 1)]):
        below = sorted({place[it] for it in used if it in place} - {number}, reverse=True)
        kit = sorted(it for it in used if it not in place)
        on = " ".join(map(str, below)) + (f" and {' '.join(kit)}" if kit else "")
        cells = textwrap.wrap(" ".join(names), 50)
        heads = textwrap.wrap(title, 28)
        sides = textwrap.wrap(f"on {on.removeprefix(' and ')}" if on else "", 24)
        for row in range(max(len(cells), len(heads), len(sides))):
            cell, head, side = ((it[row] if row < len(it) else "") for it in (cells, heads, sides))
            lines.append(f"{number if row == 0 else '':>2}  {head:<28} | {cell:<50} | {side}".rstrip())
    return "\n".join(lines)


def page():
    """The page with what the sources have now."""
    return specs.between(PAGE, FIRST, LAST, f"```\n{drawing()}\n```\n")


if __name__ == "__main__":
    commands.run(lambda: specs.put(PAGE, page, "layers.py", sys.argv[1:], __doc__))
