#!/usr/bin/env python3
"""Plays examples/skirmish.script by posts, without a script, and looks at what stands.

PATHSERVE_LIBRARY=lib/libpathserve.so.0 examples/python/skirmish.py
"""
import sys

from pathserve import Goal, PassabilityClass, PostedMatch, Rect, add_square, fixed, load, move, path, region, remove

if sys.argv[1:]:
    is_asked = sys.argv[1:] in (["-h"], ["--help"])
    print(__doc__, file=sys.stdout if is_asked else sys.stderr)
    sys.exit(0 if is_asked else 2)
try:
    load()
except OSError as it:
    sys.exit(f"skirmish.py: {it}; the variable PATHSERVE_LIBRARY names the library")

INFANTRY, SIEGE = 0, 1
classes = [PassabilityClass("infantry", fixed(0.5)), PassabilityClass("siege", fixed(1.5))]
west = path(1, SIEGE, fixed(10.5), fixed(3.5), Goal.circle(fixed(1.5), fixed(3.5), fixed(1)))
turns = [
    [
        add_square(0, 1, 1 << INFANTRY | 1 << SIEGE, fixed(6), fixed(3), fixed(1), 0, fixed(0.5), fixed(2)),
        path(0, INFANTRY, fixed(1.5), fixed(1.5), Goal.obstruction(1, fixed(1))),
        west,
        region(1, SIEGE, fixed(6.5), fixed(3.5)),
    ],
    [west, move(0, 1, fixed(6), fixed(1)), remove(0, 2)],
]

with PostedMatch(12, 8, 2, classes, [Rect(0, 7, 11, 7, 1 << INFANTRY | 1 << SIEGE)]) as match:
    for posts in turns:
        match.post(posts)
        turn = match.end_turn()
        print(f"turn {turn.turn}: {turn.areas} areas, {turn.relabelled} relabelled")
        for reply in turn.replies:
            said = reply.path or reply.region or reply.why or reply.id
            print(f"  caller {reply.caller}, post {reply.post}: {reply.kind.name} {said}")
    with match.view() as view:
        print("siege, from the north:")
        for j in reversed(range(8)):
            print("  " + "".join(".#"[not free] for free in view.row(SIEGE, j, 12)))
        print("and back east:", view.find(path(1, SIEGE, fixed(1.5), fixed(3.5), Goal.point(fixed(10.5), fixed(3.5)))).path)
