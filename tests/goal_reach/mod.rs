//! Start cells and targets on small maps, and how much of a wide one is looked at for them.

use crate::fixtures::counted::Counted;
use crate::fixtures::figures::goal_of;
use crate::fixtures::maps::drawn;
use crate::fixtures::rooms::Rooms;
use crate::fixtures::texts::{fields_of, parsed_cell};
use fixed_point::{Fixed, is_on_axis};
use goal_reach::{Target, made_reachable, nearest_passable};
use goal_shapes::{Goal, check, contains, remoteness};
use nav_types::{Areas, Cell, CellByCell, Class, FreeCells, Rect, View};
use std::alloc::Global;

/// In each line the rows of a map from the first up, `#` impassable, a point in halves of a navcell, and its start
/// cell. `tools/test_lines.py starts` makes such a line.
const STARTS: &str = "\
.#.;3,1;0,0
...;3,1;1,0
...;2,1;1,0
.#.;2,1;0,0
.#.;4,1;2,0
##./##.;0,0;2,0
##/#.;1,1;1,1
#.#/###/.#.;3,3;1,0
.../.#./...;3,3;1,0
####/####/###.;1,1;3,2
###/###;3,1;
..##..;6,1;1,0
";

/// A coordinate in halves of a navcell.
fn halves(count: u16) -> Fixed {
    Fixed::from_raw(32768 * i32::from(count))
}

/// Whether the start cell of a point, in halves of a navcell, is this one. None where the point is not on the map.
fn starts_at<V: FreeCells>(view: &V, point: Cell, start: Option<Cell>) -> Option<bool> {
    let (x, z) = (halves(point.i), halves(point.j));
    let size = view.size();
    if view.classes() < 1 || !is_on_axis(x, size.w) || !is_on_axis(z, size.h) {
        return None;
    }
    Some(nearest_passable(view, Class::new(0), x, z) == start)
}

/// Whether a line of `STARTS` says what the start cell is. None where it is not in the form of the table.
fn starts_as_the_line_says(alloc: Global, line: &str) -> Option<bool> {
    let [map, point, start, ..] = fields_of(line);
    let point = parsed_cell(point)?;
    let map = drawn(alloc, map)?;
    starts_at(&CellByCell { view: &map }, point, parsed_cell(start))
}

#[test]
fn starts_are_as_the_table_says(rt: HostRuntime) {
    for line in STARTS.lines() {
        assert!(rt;
            starts_as_the_line_says(rt.alloc(), line) == Some(true),
            "{line}"
        );
    }
}

/// Whether the goal of a text has the near cell in its place, or stays where that is none, on any map whose areas are
/// numbered. None where the text is no sound goal or the start is not passable.
fn is_target<M: Areas + FreeCells>(
    map: &M,
    start: Cell,
    goal: &str,
    near: Option<Cell>,
) -> Option<bool> {
    let class = Class::new(0);
    let size = map.size();
    let Ok(goal) = check(goal_of(goal)?, size) else {
        return None;
    };
    if map.classes() < 1 || !size.has(start) || !map.passable(class, start) {
        return None;
    }
    let wanted = match near {
        Some(cell) => Target::Near(cell),
        None => Target::Goal(goal),
    };
    Some(made_reachable(map, class, start, &goal) == wanted)
}

/// The rectangle from one cell to another.
fn rect(i0: u16, j0: u16, i1: u16, j1: u16) -> Rect {
    Rect { i0, j0, i1, j1 }
}

// On five columns and three rows in two rooms, a start, a goal, and the near cell that stands for it.
const ROOMS: [(Cell, &str, Option<Cell>); 4] = [
    // the goal lies in the same room
    (Cell { i: 0, j: 0 }, "point 163840 163840", None),
    // its cell is blocked
    (
        Cell { i: 0, j: 0 },
        "point 98304 98304",
        Some(Cell { i: 1, j: 0 }),
    ),
    // it lies in the other room
    (
        Cell { i: 0, j: 0 },
        "point 294912 98304",
        Some(Cell { i: 2, j: 1 }),
    ),
    // two near cells are alike
    (
        Cell { i: 4, j: 2 },
        "circle 163840 65536 0",
        Some(Cell { i: 4, j: 0 }),
    ),
];

/// The map of the two rooms.
fn two_rooms(alloc: Global) -> Option<Rooms> {
    Rooms::among(alloc, [5, 3], &[rect(3, 0, 3, 2), rect(1, 1, 1, 1)])
}

#[test]
fn a_goal_out_of_reach_has_a_near_cell(rt: HostRuntime) {
    let Some(map) = two_rooms(rt.alloc()) else {
        panic!(rt; "no map");
    };
    let cells = CellByCell { view: &map };
    for (start, goal, near) in ROOMS {
        assert!(rt;
            is_target(&cells, start, goal, near) == Some(true),
            "{goal}"
        );
    }
}

#[test]
fn a_blocked_start_looks_at_cells_near_by(rt: HostRuntime) {
    let boulder = [rect(1000, 1000, 1000, 1000)];
    let Some(map) = Rooms::among(rt.alloc(), [2048, 2048], &boulder) else {
        panic!(rt; "no map");
    };
    let cells = CellByCell { view: &map };
    let counted = Counted::new(&cells);
    let start = Some(Cell::new(1000, 999));
    assert!(rt; starts_at(&counted, Cell::new(2001, 2001), start) == Some(true));
    assert!(rt; counted.cells() < 1000);
}

/// On a wide map of which a corner is blocked, 21 columns by 21 rows, goals in that corner and their near cells.
#[test]
fn a_goal_out_of_reach_looks_at_cells_near_by(rt: HostRuntime) {
    let wall = [rect(0, 0, 20, 20)];
    let Some(map) = Rooms::among(rt.alloc(), [2048, 2048], &wall) else {
        panic!(rt; "no map");
    };
    for (goal, near) in [
        ("point 688128 688128", Cell::new(21, 10)),
        ("circle 688128 688128 131072", Cell::new(21, 10)),
        (
            "square 688128 688128 65536 0 131072 131072",
            Cell::new(21, 8),
        ),
    ] {
        let cells = CellByCell { view: &map };
        let counted = Counted::new(&cells);
        let start = Cell::new(60, 70);
        assert!(rt;
            is_target(&counted, start, goal, Some(near)) == Some(true),
            "{goal}"
        );
        assert!(rt; counted.cells() < 5000, "{goal}");
    }
}

/// A goal in the middle of a blocked square of 601 by 601 navcells: a side of a ring is passed over by one question.
#[test]
fn blocked_cells_are_passed_over_at_once(rt: HostRuntime) {
    let wall = [rect(0, 0, 600, 600)];
    let Some(map) = Rooms::among(rt.alloc(), [1024, 1024], &wall) else {
        panic!(rt; "no map");
    };
    let cells = CellByCell { view: &map };
    let counted = Counted::new(&cells);
    let start = Cell::new(700, 700);
    let near = Some(Cell::new(601, 300));
    assert!(rt; is_target(&counted, start, "point 19693568 19693568", near) == Some(true));
    assert!(rt; counted.cells() < 5000);
}

/// The target of a goal by a search over all cells of the map. None where no cell is joined to the start.
fn plain_target<M: Areas>(map: &M, start: Cell, goal: &Goal) -> Option<Target> {
    let class = Class::new(0);
    let area = map.area(class, start);
    let mut near: Option<(u128, Cell)> = None;
    for j in 0..map.size().h {
        for i in 0..map.size().w {
            let cell = Cell::new(i, j);
            if map.area(class, cell) == area {
                if contains(goal, cell) {
                    return Some(Target::Goal(*goal));
                }
                let rank = remoteness(goal, cell);
                if near.is_none_or(|(least, _)| rank < least) {
                    near = Some((rank, cell));
                }
            }
        }
    }
    Some(Target::Near(near?.1))
}

/// How many starts of a map have another target of the goal of a text than a search over all cells finds, and how many
/// have a near cell. None where the text is no sound goal.
fn other_targets(map: &Rooms, goal: &str) -> Option<(u32, u32)> {
    let size = map.size();
    let Ok(goal) = check(goal_of(goal)?, size) else {
        return None;
    };
    let (cells, mut others, mut near) = (CellByCell { view: map }, 0, 0);
    for j in 0..size.h {
        for i in 0..size.w {
            let (class, start) = (Class::new(0), Cell::new(i, j));
            if map.passable(class, start) {
                let target = made_reachable(&cells, class, start, &goal);
                if plain_target(map, start, &goal) != Some(target) {
                    others += 1;
                }
                if let Target::Near(_) = target {
                    near += 1;
                }
            }
        }
    }
    Some((others, near))
}

/// The rooms of a map that is drawn.
fn drawn_rooms(alloc: Global, text: &str) -> Option<Rooms> {
    Rooms::of(alloc, drawn(alloc, text)?).ok()
}

/// Maps with rooms, gaps and cells that stand alone.
const OPEN_AND_SHUT: [&str; 4] = [
    "......../......../......../......../........",
    "..#...../.##..##./.#..#.../.#.##.#./.#....#.",
    "#######./#.....#./#.###.#./#.#...#./###.#.##/......#.",
    "#.#.#.#/.#.#.#./#.#.#.#/.##.##./..#.#..",
];

/// Goals that are turned inside out: round the whole map, most of it or a part, along its axes and across them, with cells
/// that are as remote as others, and with sides past which nothing lies.
const INSIDE_OUT: [&str; 11] = [
    "not-circle 262144 163840 268435456",
    "not-circle 229376 163840 327680",
    "not-circle 262144 163840 131072",
    "not-circle 0 0 524288",
    "not-circle 425984 32768 262144",
    "not-square 262144 163840 65536 0 268435456 268435456",
    "not-square 262144 163840 65536 0 131072 268435456",
    "not-square 262144 163840 0 65536 163840 327680",
    "not-square 229376 131072 52429 39322 268435456 393216",
    "not-square 98304 229376 46341 46341 262144 229376",
    "not-square 327680 65536 46341 -46341 65536 131072",
];

#[test]
fn goals_inside_out_have_the_targets_of_a_plain_search(rt: HostRuntime) {
    let mut all_near = 0;
    for text in OPEN_AND_SHUT {
        let Some(map) = drawn_rooms(rt.alloc(), text) else {
            panic!(rt; "no map: {text}");
        };
        for goal in INSIDE_OUT {
            let Some((others, near)) = other_targets(&map, goal) else {
                panic!(rt; "no goal: {goal}");
            };
            assert!(rt; others == 0, "{goal} on {text}");
            all_near += near;
        }
    }
    assert!(rt; all_near > 300, "{all_near}");
}

/// A goal that holds a wide map has no cell there, and its near cell is found with a few questions for each row.
#[test]
fn a_goal_round_the_map_looks_at_the_ends_of_rows(rt: HostRuntime) {
    let wall = [rect(0, 0, 20, 20)];
    let Some(map) = Rooms::among(rt.alloc(), [2048, 2048], &wall) else {
        panic!(rt; "no map");
    };
    for (goal, near) in [
        ("not-circle 67108864 67076096 268435456", Cell::new(0, 2047)),
        (
            "not-square 67108864 67108864 65536 0 268435456 268435456",
            Cell::new(21, 0),
        ),
    ] {
        let cells = CellByCell { view: &map };
        let counted = Counted::new(&cells);
        let start = Cell::new(60, 70);
        assert!(rt;
            is_target(&counted, start, goal, Some(near)) == Some(true),
            "{goal}"
        );
        assert!(rt; counted.cells() < 20_000, "{goal}");
    }
}
