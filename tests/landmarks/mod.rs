//! Tables of landmarks over small maps that are drawn as text, against the plain search.

use crate::fixtures::aims::Targets;
use crate::fixtures::landmarks::add_table;
use crate::fixtures::maps::drawn;
use crate::fixtures::rows::GridRows;
use landmarks::{HalfTable, Landmarks, MAX_TABLES};
use nav_types::{Cell, Class, Rect, View};
use navcell_grid::Grid;
use std::alloc::Global;
use walks::plain_search;

/// Maps whose passable cells are all joined, and with each the same map with more walls, of which that holds too.
const MAPS: &str = "\
....#.../.##.#.#./.#....#./.####.#./......#.;....#.../###.#.#./##....#./#####.#./......#.
......./.#####./...#...;......./.#####./..##...
......./######./......./.######/.......;#....../######./......./.######/......#
.........../..##..#..../.....#...../.#.......#./....#.....#;.........../..##..#..../...#.#...../.#.......#./....#.#...#
";

/// The snake of a corridor three rows high.
const SNAKE: &str = "......../#######./......../.#######/........";

/// The tables of class 0 of a map, so many of them, begun near a cell.
fn tables_of(alloc: Global, map: &Grid, near: Cell, count: usize) -> Option<Landmarks> {
    let mut tables = Landmarks::none(alloc, map.size()).ok()?;
    for _ in 0..count {
        add_table(alloc, &mut tables, map, near).ok()?;
    }
    Some(tables)
}

/// The cost of a cheapest walk between two cells that are joined.
fn distance(alloc: Global, map: &Grid, from: Cell, to: Cell) -> Option<u64> {
    let mut cells = Vec::new(alloc);
    cells.push(to).ok()?;
    let aim = Targets {
        cells,
        rect: Rect::of_cell(to),
    };
    let found = plain_search(alloc, map, Class::new(0), from, &aim).ok()?;
    Some(found.cost.0)
}

/// The passable cells of a map.
fn free_cells(alloc: Global, map: &Grid) -> Option<Vec<Cell>> {
    let size = map.size();
    let mut cells = Vec::new(alloc);
    for j in 0..size.h {
        for i in 0..size.w {
            let cell = Cell::new(i, j);
            if map.passable(Class::new(0), cell) {
                cells.push(cell).ok()?;
            }
        }
    }
    Some(cells)
}

/// How many pairs of cells of a map lie nearer than the tables say.
fn wrong_bounds(alloc: Global, map: &Grid, tables: &Landmarks) -> Option<u32> {
    let cells = free_cells(alloc, map)?;
    let mut wrong = 0;
    for from in cells.as_slice() {
        for to in cells.as_slice() {
            if tables.at_least(*from, *to) > distance(alloc, map, *from, *to)? {
                wrong += 1;
            }
        }
    }
    Some(wrong)
}

/// How many bounds are wrong on the map of a line, and on the one with more walls.
fn wrong_in_line(alloc: Global, line: &str, count: usize) -> Option<(u32, u32)> {
    let (base, later) = line.split_once(';')?;
    let map = drawn(alloc, base)?;
    let tables = tables_of(alloc, &map, Cell::new(3, 0), count)?;
    let wrong = wrong_bounds(alloc, &map, &tables)?;
    let wrong_later = wrong_bounds(alloc, &drawn(alloc, later)?, &tables)?;
    Some((wrong, wrong_later))
}

#[test]
fn no_walk_costs_less_than_the_bound(rt: HostRuntime) {
    for line in MAPS.lines() {
        for count in 0..MAX_TABLES + 1 {
            let wrong = wrong_in_line(rt.alloc(), line, count);
            assert!(rt; wrong == Some((0, 0)), "{line} {count}");
        }
    }
}

#[test]
fn one_table_knows_a_corridor(rt: HostRuntime) {
    let bound = drawn(rt.alloc(), ".......").and_then(|map| {
        let tables = tables_of(rt.alloc(), &map, Cell::new(3, 0), 1)?;
        Some(tables.at_least(Cell::new(1, 0), Cell::new(5, 0)))
    });
    assert!(rt; bound == Some(4 * 12 * 5_451), "bound");
}

/// The bound between the ends of the snake, and the cost of the walk.
fn snake(alloc: Global) -> Option<(u64, u64)> {
    let map = drawn(alloc, SNAKE)?;
    let tables = tables_of(alloc, &map, Cell::new(3, 2), 2)?;
    let (from, to) = (Cell::new(0, 0), Cell::new(7, 4));
    Some((tables.at_least(from, to), distance(alloc, &map, from, to)?))
}

#[test]
fn the_bound_knows_walls(rt: HostRuntime) {
    let ends = snake(rt.alloc());
    assert!(rt; ends.is_some(), "no answer");
    if let Some((bound, cost)) = ends {
        assert!(rt;
            bound <= cost && cost - bound < cost / 100,
            "{bound} of {cost}"
        );
    }
}

/// The bounds from a cell to one in the same row on both sides of a wall without a door, with a table for each side.
fn two_sides(alloc: Global) -> Option<(u64, u64, usize)> {
    let map = drawn(alloc, "....#....")?;
    let mut tables = Landmarks::none(alloc, map.size()).ok()?;
    for near in [Cell::new(1, 0), Cell::new(7, 0)] {
        add_table(alloc, &mut tables, &map, near).ok()?;
    }
    let west = tables.at_least(Cell::new(0, 0), Cell::new(3, 0));
    let east = tables.at_least(Cell::new(8, 0), Cell::new(5, 0));
    Some((west, east, tables.made()))
}

#[test]
fn each_area_gets_a_landmark_of_its_own(rt: HostRuntime) {
    let both = two_sides(rt.alloc());
    assert!(rt;
        both == Some((3 * 12 * 5_451, 3 * 12 * 5_451, 2)),
        "{both:?}"
    );
}

/// How often the bound to two cells is more than a walk to one of them costs, or is not 0 at them.
fn wrong_spans(alloc: Global, map: &Grid, tables: &Landmarks) -> Option<u32> {
    let cells = free_cells(alloc, map)?;
    let (first, rest) = cells.as_slice().split_first()?;
    let mut wrong = 0;
    for other in rest {
        let span = tables.widened(&tables.span_of(*first), *other);
        let at_first = tables.at_least_to(*first, &span);
        let at_other = tables.at_least_to(*other, &span);
        if at_first != 0 || at_other != 0 {
            wrong += 1;
        }
        for from in cells.as_slice() {
            let bound = tables.at_least_to(*from, &span);
            let to_first = distance(alloc, map, *from, *first)?;
            let to_other = distance(alloc, map, *from, *other)?;
            if bound > to_first || bound > to_other {
                wrong += 1;
            }
        }
    }
    Some(wrong)
}

#[test]
fn no_walk_to_several_cells_costs_less_than_the_bound(rt: HostRuntime) {
    for line in MAPS.lines() {
        let wrong = line.split_once(';').and_then(|(base, later)| {
            let map = drawn(rt.alloc(), base)?;
            let tables = tables_of(rt.alloc(), &map, Cell::new(3, 0), 3)?;
            wrong_spans(rt.alloc(), &drawn(rt.alloc(), later)?, &tables)
        });
        assert!(rt; wrong == Some(0), "{line}");
    }
}

/// The bound from one end of the snake to the two cells at the other, and the cost of the walk.
fn snake_to_two(alloc: Global) -> Option<(u64, u64)> {
    let map = drawn(alloc, SNAKE)?;
    let tables = tables_of(alloc, &map, Cell::new(3, 2), 2)?;
    let (from, near, end) = (Cell::new(0, 0), Cell::new(6, 4), Cell::new(7, 4));
    let span = tables.widened(&tables.span_of(end), near);
    let bound = tables.at_least_to(from, &span);
    Some((bound, distance(alloc, &map, from, near)?))
}

#[test]
fn the_bound_to_two_cells_knows_walls(rt: HostRuntime) {
    let ends = snake_to_two(rt.alloc());
    assert!(rt; ends.is_some(), "no answer");
    if let Some((bound, cost)) = ends {
        assert!(rt;
            bound <= cost && cost - bound < cost / 100,
            "{bound} of {cost}"
        );
    }
}

/// How many tables there are, and the bound east of a wall without a door: of a table of the west, and of its copy that got
/// one of the east too.
fn copied(alloc: Global) -> Option<[(usize, u64); 2]> {
    let map = drawn(alloc, "....#....")?;
    let west = tables_of(alloc, &map, Cell::new(1, 0), 1)?;
    let mut both = west.copy(alloc).ok()?;
    let (from, to) = (Cell::new(8, 0), Cell::new(5, 0));
    add_table(alloc, &mut both, &map, to).ok()?;
    Some([
        (west.made(), west.at_least(from, to)),
        (both.made(), both.at_least(from, to)),
    ])
}

#[test]
fn a_copy_gets_tables_of_its_own(rt: HostRuntime) {
    let bounds = copied(rt.alloc());
    assert!(rt; bounds == Some([(1, 0), (2, 3 * 12 * 5_451)]), "{bounds:?}");
}

/// In how many parts of so much work a table of a map is made, and how much of the last is left. None where a thousand parts
/// are too few.
fn parts(alloc: Global, map: &Grid, work: usize) -> Option<(u32, usize)> {
    let rows = GridRows { grid: map };
    let mut half = HalfTable::begin(alloc, &rows, Class::new(0), Cell::new(0, 0)).ok()?;
    for part in 1..1_000 {
        let mut left = work;
        half = half.gone_on(alloc, None, &rows, &mut left).ok()?;
        if half.is_made() {
            return Some((part, left));
        }
    }
    None
}

// The work of a part, how many parts a table of a corridor of seven cells takes, and how much of the last is left. A row of
// the table has nine places, which are marked at once. Marks spread from six of them, which is eight units of work each, and
// 17 squares are looked at.
const PARTS: [(usize, u32, usize); 5] = [
    (1_000, 1, 926),
    (74, 1, 0),
    (73, 2, 72),
    (25, 3, 0),
    (9, 9, 1),
];

#[test]
fn a_part_takes_no_more_work_than_it_may(rt: HostRuntime) {
    let Some(map) = drawn(rt.alloc(), ".......") else {
        panic!(rt; "no map");
    };
    for (work, count, left) in PARTS {
        let made = parts(rt.alloc(), &map, work);
        assert!(rt; made == Some((count, left)), "{work}: {made:?}");
    }
}
