//! Steps and distances in buffers against the field's own, and lists of cells that are waypoints of a walk or of none.

use crate::fixtures::aims::parsed_targets;
use crate::fixtures::maps::drawn;
use crate::fixtures::texts::{fields_of, parsed_cell};
use crate::fixtures::versions::drawn_version;
use flat_ways::{ARRIVED, NO_DISTANCE, NO_STEP, are_corners, write_distances, write_steps};
use flow_field::{Field, field};
use nav_types::{Areas, Cell, CellByCell, Class, Dir, Size, View};
use std::alloc::Global;
use walks::Waypoints;

/// The rows of a map from the first up, `#` impassable, a start, targets, and one of them that a walk joins to the start.
const MAPS: &str = "\
..####.../..##.###./.#....#.#/####...../#.#.#..##/..#.#..#./#...#...#/....#.###;3,2;2,7 6,6 8,3;8,3
..##.#./.####../....###/###..##/.....##/#.....#/.#.#..#/#.###..;4,5;2,5 6,0 6,7 4,6;2,5
";

/// The map of the table of walks: row 0 is the lowest.
const WALKED: &str = "...../...#./..#../.....";

/// A start, cells, and whether they are the waypoints of a legal walk on `WALKED`.
const WALKS: [(&str, &str, bool); 18] = [
    ("0,0", "", true),
    ("3,1", "", true),
    ("0,0", "4,0", true),
    ("4,0", "0,0", true),
    ("0,0", "1,1 1,3 4,3", true),
    ("0,0", "1,0 4,0", false),
    ("0,0", "0,0", false),
    ("0,0", "4,0 3,0", true),
    ("0,0", "2,1", false),
    ("0,0", "3,3", false),
    ("2,0", "3,1", false),
    ("4,0", "4,3 0,3 0,0", true),
    ("4,0", "4,3 0,3 0,4", false),
    ("2,1", "3,2", false),
    // neither straight nor diagonally ahead, although as many steps that way are legal
    ("2,0", "0,1", false),
    ("2,0", "1,2", false),
    ("0,2", "2,1", false),
    ("0,2", "1,0", false),
];

/// Whether the item of a cell in both buffers is what the field has for it.
fn is_told(field: &Field, cell: Cell, step: u8, distance: u64) -> bool {
    match field.far(cell) {
        Some(cost) => distance == cost.0 && is_step(field.next(cell), step),
        None => distance == NO_DISTANCE && step == NO_STEP,
    }
}

/// Whether a number is that of a step.
fn is_step(dir: Option<Dir>, step: u8) -> bool {
    match dir {
        Some(dir) => (1..=8)
            .zip(Dir::ALL)
            .any(|(number, other)| number == step && other == dir),
        None => step == ARRIVED,
    }
}

/// Whether buffers of so many items have what the field has, and nothing is written behind the map. None where there is no
/// memory.
fn tells(alloc: Global, field: &Field, size: Size, count: usize) -> Option<bool> {
    let mut steps = vec![in alloc; 77; count].ok()?;
    let mut distances = vec![in alloc; 77; count].ok()?;
    write_steps(field, size, &mut steps);
    write_distances(field, size, &mut distances);
    let width = usize::from(size.w);
    let all = width.saturating_mul(usize::from(size.h));
    for place in 0..count {
        let cell = Cell::new((place % width) as u16, (place / width) as u16);
        let is_right = if place < all {
            is_told(field, cell, steps[place], distances[place])
        } else {
            steps[place] == 77 && distances[place] == 77
        };
        if !is_right {
            return Some(false);
        }
    }
    Some(true)
}

/// Whether the field of a line is told in buffers of several lengths. None where the line has no field.
fn tells_as_the_field(alloc: Global, line: &str) -> Option<bool> {
    let [map, start, targets, end, _, _, _] = fields_of(line);
    let map = drawn_version(alloc, map)?;
    let class = Class::new(0);
    let (start, end) = (parsed_cell(start)?, parsed_cell(end)?);
    let targets = parsed_targets(alloc, targets)?;
    if map.area(class, start) != map.area(class, end) {
        return None;
    }
    let field = field(alloc, &map, class, start, &targets).ok()?;
    for count in [0, 1, 10, 72, 80] {
        if !tells(alloc, &field, map.size(), count)? {
            return Some(false);
        }
    }
    Some(true)
}

#[test]
fn buffers_have_what_the_field_has(rt: HostRuntime) {
    for line in MAPS.lines() {
        assert!(rt;
            tells_as_the_field(rt.alloc(), line) == Some(true),
            "{line}"
        );
    }
}

/// Whether the cells of a text are the waypoints of a walk. None where the text has no cells, or there is no memory.
fn are_walked(alloc: Global, start: &str, text: &str) -> Option<bool> {
    let map = drawn(alloc, WALKED)?;
    let mut cells = Waypoints::new(alloc);
    for word in text.split_whitespace() {
        cells.push(parsed_cell(word)?).ok()?;
    }
    let view = CellByCell { view: &map };
    Some(are_corners(&view, Class::new(0), parsed_cell(start)?, cells.as_slice()))
}

#[test]
fn waypoints_are_those_of_legal_walks(rt: HostRuntime) {
    for (start, cells, is_walk) in WALKS {
        assert!(rt;
            are_walked(rt.alloc(), start, cells) == Some(is_walk),
            "{start}: {cells}"
        );
    }
}
