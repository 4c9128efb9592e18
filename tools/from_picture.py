#!/usr/bin/env python3
"""A picture as a script: a point is a navcell, and its colour says who can walk on it.

    from_picture.py island.png > island.script
    from_picture.py --class infantry:0.5 --class ship:1:3060c0 island.png > island.script
    from_picture.py --class infantry:0.5:ffffff,d2b48c --class ship:1:3060c0 island.png > island.script
    ./pathserve replay < island.script > island.answers
    tools/view.py island.script island.answers > island.html

A class walks on the colours behind its clearance, each as rrggbb, and where it names none on white. Each point of the
picture counts as the nearest of black and of all colours that classes name. So a drawing in black and white needs no word,
and the soft edges of a painted one do no harm. What lets light through lies on white. What a class cannot walk on is grown
by its clearance, rounded up to whole cells. The picture's first row is the northernmost.

A PNG is read as it is, and other pictures where Pillow is installed. The status is 2 where the picture is missing, cannot be
read, or has more than 2048 points a side.
"""
import re

import commands
import mapmaking
import raster
from mapmaking import MOST, NoMap

BLACK = b"\0\0\0"


def colours_of(kind):
    """The colours that a class walks on."""
    names = kind.ground.replace("#", "").split(",") if kind.ground else ["ffffff"]
    for it in names:
        if not re.fullmatch("[0-9a-fA-F]{6}", it):
            raise NoMap(f"{it} is no colour: one is written as rrggbb, in hexadecimal digits")
    return {bytes.fromhex(it) for it in names}


def nearest(colour, known):
    return min(known, key=lambda it: (sum((a - b) ** 2 for a, b in zip(colour, it)), it))


def blocked(points, kinds):
    """For each class the rows from the south that it cannot walk on."""
    walked = [colours_of(it) for it in kinds]
    known = set.union({BLACK}, *walked)
    stands_for = {it: nearest(it, known) for it in {it for row in points for it in row}}
    width, found = len(points[0]), []
    for kind, mine in zip(kinds, walked):
        marks = {it: "0" if stands_for[it] in mine else "1" for it in stands_for}
        rows = [int("".join(map(marks.get, reversed(row))), 2) for row in reversed(points)]
        found.append(mapmaking.grown(rows, kind.room, width))
    return found


def words():
    parser = commands.parser_of(__doc__)
    parser.add_argument("picture")
    mapmaking.add_words(parser, "NAME:CLEARANCE:COLOUR,.. has others than white to walk on")
    return parser.parse_args()


def main():
    said = words()
    try:
        kinds = mapmaking.kinds_in(said)
        points = raster.points_of(commands.bytes_of(said.picture))
        width, height = len(points[0]), len(points)
        if max(width, height) > MOST:
            raise NoMap(f"a script's map has at most {MOST} cells a side, and this one is {width} by {height}")
        denied = blocked(points, kinds)
    except raster.NoPicture as it:
        commands.say(f"{said.picture}: {it}")
        return 2
    except (NoMap, commands.Unreadable) as it:
        commands.say(it)
        return 2
    pairs = [mapmaking.drawn(it, width, said.paths, said.seed) for it in denied]
    for it in mapmaking.script(width, kinds, denied, pairs):
        print(it)
    for kind, rows in zip(kinds, denied):
        count = width * height - sum(bin(bits).count("1") for bits in rows)
        commands.say(f"{kind.name} can walk on {count} of {width * height} cells")
    return 0


if __name__ == "__main__":
    commands.run(main)
