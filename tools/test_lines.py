#!/usr/bin/env python3
"""Lines of the tables in `tests/`, by the model of docs/FORMAT.md in `examples/check.py`, which knows nothing of the crates.

    test_lines.py TABLE QUESTION   prints the line of a table for a question, to be copied into it
    test_lines.py --check          compares all lines of these tables, and ends with 1 where one differs

A question has `;` between its fields; rows of a map go from the first up with `/` between, `#` impassable; numbers are raw.

    goals        goal;columns rows;cells         "circle 65536 65536 65536;4 4;0 0,3 3"
    values       text                            "0.1"
    blocks       shape;clearance;row;columns     "unit 65536 65536 0;65536;1;0 1 2"
    reaches      shape;clearance;columns rows    "unit 65536 65536 0;65536;4 4"
    starts       rows;point in halves            ".#.;3,1"
    walks        rows;start;targets              ".../.#./...;0,0;2,2 2,1"
    jumps        rows;start;targets
    smooth       rows;start;target
    runs         rows;targets;from;direction     "...../.....;4,0;0,0;E"
    successors   rows;cell;direction or -        "..#/...;1,0;E"
"""
import os
import re
import sys
import types

import commands

TOP = os.path.dirname(os.path.dirname(os.path.abspath(__file__)))
sys.dont_write_bytecode = True


def read_model():
    """`examples/check.py` as a module, though `tools/` has a file of this name."""
    model = types.ModuleType("model")
    with open(f"{TOP}/examples/check.py", encoding="utf-8") as it:
        exec(compile(it.read(), "examples/check.py", "exec"), model.__dict__)
    return model


MODEL = read_model()


def cells_of(rows):
    rows = rows.split("/")
    walls = [(i, j, i, j, 1) for j, row in enumerate(rows) for i, tile in enumerate(row) if tile == "#"]
    return MODEL.Cells(types.SimpleNamespace(w=len(rows[0]), h=len(rows), base=walls), {}, 0, 0)


def cell_of(text):
    i, j = text.split(",")
    return int(i), int(j)


def text_of(cells):
    return " ".join(f"{i},{j}" for i, j in cells)


def goals(goal, size, cells):
    kind, *numbers = goal.split()
    goal_is, (w, h) = MODEL.Goal(kind, [*map(int, numbers)]), map(int, size.split())
    # the numbers of the crates, which are never negative
    scaled = {"point": lambda far: far * MODEL.SIDE**2, "not-circle": lambda far: 2**56 + far}.get(kind, lambda far: far)
    told = []
    for cell in (tuple(map(int, it.split()[:2])) for it in cells.split(",")):
        told.append(f"{cell[0]} {cell[1]} {int(goal_is.has(cell))} {scaled(goal_is.remoteness(cell))}")
    return [" ".join(map(str, goal_is.box(w, h))), ",".join(told)]


def values(text):
    raw = MODEL.decimal(text)
    whole, parts = divmod(abs(raw), MODEL.SIDE)
    places = f"{parts * 10**16 // MODEL.SIDE:016}".rstrip("0")
    return [str(raw), "-" * (raw < 0) + str(whole) + (f".{places}" if places else "")]


def square_of(shape):
    kind, *numbers = shape.split()
    numbers = [*map(int, numbers)]
    return [*numbers[:2], MODEL.SIDE, 0, *numbers[2:] * 2] if kind == "unit" else numbers


def blocks(shape, clearance, row, columns):
    square, most = square_of(shape), (MODEL.SIDE * int(clearance)) ** 2
    blocked = [it for it in columns.split() if MODEL.squared_past(square, (int(it), int(row))) <= most]
    return [" ".join(blocked), " ".join(it for it in columns.split() if it not in blocked)]


def reaches(shape, clearance, size):
    """The cells whose middles are as near to the shape's, along both axes, as a cell that it blocks can be."""
    square, (w, h) = square_of(shape), map(int, size.split())
    sides = square[4] + square[5] + 2 * int(clearance)
    far, middle = sides + sides // 64 + 1, MODEL.SIDE // 2
    columns = [i for i in range(w) if abs(MODEL.SIDE * i + middle - square[0]) <= far]
    rows = [j for j in range(h) if abs(MODEL.SIDE * j + middle - square[1]) <= far]
    return [f"{columns[0]} {rows[0]} {columns[-1]} {rows[-1]}" if columns and rows else "none"]


def starts(rows, point):
    cells = cells_of(rows)
    return [text_of([cells.start_cell(*(it * MODEL.SIDE // 2 for it in cell_of(point)))]) if cells.free else ""]


def walk(rows, start, targets):
    """The end, the cost and the waypoints of the chosen walk, and how many jump states are opened."""
    cells, start, targets = cells_of(rows), cell_of(start), [cell_of(it) for it in targets.split()]
    far = cells.distances(start)
    end = min((it for it in targets if it in far), key=lambda cell: (far[cell], MODEL.in_order(cell)))
    points = cells.waypoints(far, start, end)
    columns, rows = zip(*targets)
    box = min(columns), min(rows), max(columns), max(rows)
    opened = MODEL.JumpStates(cells, set(targets)).opened(start, box, far[end])
    return [text_of([end]), str(far[end]), text_of(points)], str(opened), cells.smoothed([start, *points])


def walks(rows, start, targets):
    return walk(rows, start, targets)[0]


def jumps(rows, start, targets):
    told, opened, _ = walk(rows, start, targets)
    return [*told, opened]


def smooth(rows, start, target):
    told, _, smoothed = walk(rows, start, target)
    return [*told, text_of(smoothed)]


def runs(rows, targets, start, direction):
    states = MODEL.JumpStates(cells_of(rows), {cell_of(it) for it in targets.split()})
    stop = states.run(cell_of(start), direction)
    return [text_of([stop[0]]) if stop else "-"]


def successors(rows, cell, direction):
    ways = MODEL.JumpStates(cells_of(rows), set()).successors(cell_of(cell), None if direction == "-" else direction)
    return [" ".join(it for it in MODEL.STEPS if it in ways)]


# where each table stands, what makes the rest of a line, and how many of its fields are the question
TABLES = {
    "goals": ("goal_shapes", "GOALS", goals, 2),
    "values": ("fixed_point", "VALUES", values, 1),
    "blocks": ("obstruction_shapes", "BLOCKS", blocks, 3),
    "reaches": ("obstruction_shapes", "REACHES", reaches, 3),
    "starts": ("goal_reach", "STARTS", starts, 2),
    "walks": ("walks", "TABLE", walks, 3),
    "jumps": ("jump_search", "TABLE", jumps, 3),
    "smooth": ("line_smooth", "TABLE", smooth, 3),
    "runs": ("jump_scan", "RUNS", runs, 4),
    "successors": ("jump_scan", "SUCCESSORS", successors, 3),
}


def line_of(table, question):
    """The line of a table for a question."""
    _, _, rest, kept = TABLES[table]
    fields = question.split(";")
    return ";".join([*fields[:kept], *rest(*fields)])


def question_of(table, line):
    """The question that a line answers."""
    kept, fields = TABLES[table][3], line.split(";")
    if table == "goals":
        return ";".join([*fields[:kept], fields[3]])
    if table == "blocks":
        return ";".join([*fields[:kept], " ".join(sorted(fields[3].split() + fields[4].split(), key=int))])
    return ";".join(fields[:kept])


def lines_of(table):
    folder, name, _, _ = TABLES[table]
    with open(f"{TOP}/tests/{folder}/mod.rs", encoding="utf-8") as it:
        body = re.search(rf'const {name}: &str = "\\\n(.*?)";', it.read(), re.S)[1]
    return re.sub(r"\\\n\s*", "", body).strip("\n").split("\n")


def differing():
    """The lines that the model does not make, each with what it makes."""
    for table in TABLES:
        for line in lines_of(table):
            made = line_of(table, question_of(table, line))
            if made != line:
                yield f"{table}: {line}\n   not {made}"


def main(words):
    if words == ["--check"]:
        found = [*differing()]
        print(*found, sep="\n", end="\n" * bool(found))
        return 1 if found else 0
    if len(words) != 2 or words[0] not in TABLES:
        return commands.usage(__doc__.strip(), words)
    try:
        print(line_of(*words))
    except (TypeError, ValueError, KeyError, IndexError) as error:
        print(f"test_lines.py: this is no question of {words[0]}: {error}", file=sys.stderr)
        return 2
    return 0


if __name__ == "__main__":
    commands.run(lambda: main(sys.argv[1:]))
