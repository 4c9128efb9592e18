//! Clear segments of small maps against the inequality cell by cell, and smoothed waypoints of walks on them.

use crate::fixtures::maps::drawn;
use crate::fixtures::searches::{are_cells, is_fit, is_found, search_of};
use crate::fixtures::texts::fields_of;
use line_smooth::{clear, smooth};
use nav_types::{Aim, Cell, CellByCell, Class, FreeCells, Size, View};
use navcell_grid::Grid;
use std::alloc::Global;
use walks::{Found, Waypoints, plain_search};

/// Maps of nine by nine cells.
const MAPS: [&str; 3] = [
    "........./.#......./...#...../......#../........./..#....../.....#.../.......#./.........",
    "....#..../..#.....#/#.....#../...##..../.#.....#./.....#.../##....#../...#...../.#.....#.",
    "........./........./........./...#...../........./........./........./........./.........",
];

/// In each line the rows of a map from the first up, `#` impassable, the start and the target, the end, the cost and
/// the waypoints of the chosen walk, and the smoothed waypoints. `tools/test_lines.py smooth` makes such a line.
const TABLE: &str = "\
.../.../...;0,0;2,1;2,1;158218;1,1 2,1;2,1
.../.../...;1,1;1,1;1,1;0;;
.../.#./...;0,0;2,2;2,2;262144;2,0 2,2;2,0 2,2
.#/..;0,0;1,1;1,1;131072;0,1 1,1;0,1 1,1
....../#...../....##/...#../#...../......;0,5;3,1;3,1;381972;1,5 2,4 2,2 3,1;1,5 3,1
....../....../.#..../..#.../....#./......;2,4;0,2;0,2;223754;1,4 0,3 0,2;0,3 0,2
";

/// Whether the segment touches the cell, by the offsets of the two cells from the first.
fn is_touched(from: Cell, to: Cell, cell: Cell) -> bool {
    let (di, dj) = (offset(from.i, to.i), offset(from.j, to.j));
    let (ei, ej) = (offset(from.i, cell.i), offset(from.j, cell.j));
    let apart = di.saturating_mul(ej).saturating_sub(dj.saturating_mul(ei));
    is_part(di, ei)
        && is_part(dj, ej)
        && apart.saturating_abs().saturating_mul(2)
            <= di.saturating_abs().saturating_add(dj.saturating_abs())
}

fn offset(from: u16, to: u16) -> i64 {
    i64::from(to) - i64::from(from)
}

/// Whether the offset lies between 0 and the whole one.
fn is_part(whole: i64, part: i64) -> bool {
    (0 <= part && part <= whole) || (whole <= part && part <= 0)
}

/// Whether a blocked cell of the map is one that the segment touches.
fn is_in_the_way<V: View>(view: &V, class: Class, from: Cell, to: Cell) -> bool {
    for j in 0..9 {
        for i in 0..9 {
            let cell = Cell::new(i, j);
            if !view.size().has(cell) {
                continue;
            }
            if !view.passable(class, cell) && is_touched(from, to, cell) {
                return true;
            }
        }
    }
    false
}

/// The first two cells of the map between which the segment is clear where a touched cell is blocked, or not clear where
/// none is. None where there are none such.
fn odd_pair(alloc: Global, map: &str) -> Option<(Cell, Cell)> {
    let class = Class::new(0);
    let map = drawn(alloc, map)?;
    let cells = CellByCell { view: &map };
    for pair in 0..6561u16 {
        let from = Cell::new(pair % 9, pair / 9 % 9);
        let to = Cell::new(pair / 81 % 9, pair / 729);
        if map.size().has(from)
            && map.size().has(to)
            && clear(&cells, class, from, to) == is_in_the_way(&map, class, from, to)
        {
            return Some((from, to));
        }
    }
    None
}

#[test]
fn clear_segments_are_those_of_the_inequality(rt: HostRuntime) {
    for map in MAPS {
        assert!(rt; drawn(rt.alloc(), map).is_some(), "{map}");
        assert!(rt; odd_pair(rt.alloc(), map).is_none(), "{map}");
    }
}

/// The chosen walk, and its smoothed waypoints.
fn found_and_smoothed<V: FreeCells, A: Aim>(
    alloc: Global,
    view: &V,
    class: Class,
    start: Cell,
    aim: &A,
) -> Option<(Found, Waypoints)> {
    let Ok(found) = plain_search(alloc, view, class, start, aim) else {
        return None;
    };
    let Ok(points) = smooth(alloc, view, class, start, &found.waypoints) else {
        return None;
    };
    Some((found, points))
}

/// Whether a line of `TABLE` says what the walk and its smoothing are. None where its walk does not fit its map, or there
/// is no memory.
fn smooths_as_the_line_says(alloc: Global, line: &str) -> Option<bool> {
    let [map, start, targets, end, cost, points, smoothed] = fields_of(line);
    let class = Class::new(0);
    let search = search_of(alloc, [start, targets, end, cost, points])?;
    let map = drawn(alloc, map)?;
    let cells = CellByCell { view: &map };
    let (start, aim) = (search.start, &search.targets);
    if !aim.rect.is_inside(map.size()) || !is_fit(&cells, class, start, points, aim) {
        return None;
    }
    let (found, kept) = found_and_smoothed(alloc, &cells, class, start, aim)?;
    Some(is_found(&search, &found) && are_cells(smoothed, kept.as_slice()))
}

#[test]
fn smooths_as_the_table_says(rt: HostRuntime) {
    for line in TABLE.lines() {
        assert!(rt;
            smooths_as_the_line_says(rt.alloc(), line) == Some(true),
            "{line}"
        );
    }
}

/// The waypoints of a walk over an open map that goes a step to the east and one to the north-east in turn, so many steps.
fn stairs(alloc: Global, steps: u16) -> Option<Waypoints> {
    let mut points = Waypoints::new(alloc);
    for step in 1..=steps {
        points.push(Cell::new(step, step / 2)).ok()?;
    }
    Some(points)
}

/// The smoothed waypoints of such a walk of 138 steps.
fn smoothed_stairs(alloc: Global) -> Option<Waypoints> {
    let map = Grid::new(alloc, Size::new(139, 70)?).ok()?;
    let cells = CellByCell { view: &map };
    let points = stairs(alloc, 138)?;
    smooth(alloc, &cells, Class::new(0), Cell::new(0, 0), &points).ok()
}

/// Three lines are the fewest that pass over 64 places each at most, and each goes as far as it may.
#[test]
fn a_line_passes_over_64_places_at_most(rt: HostRuntime) {
    let Some(points) = smoothed_stairs(rt.alloc()) else {
        panic!(rt; "no map");
    };
    assert!(rt; are_cells("64,32 128,64 138,69", points.as_slice()));
}
