//! Flow fields over small maps that are drawn as text.

use crate::fixtures::aims::parsed_targets;
use crate::fixtures::texts::{fields_of, parsed_cell};
use crate::fixtures::versions::drawn_version;
use flow_field::{Field, FlowSummary, field};
use nav_types::{Aim, Areas, Cell, Class, Dir, FreeCells, View};
use std::alloc::Global;
use walks::{cost, plain_search};

/// In each line the rows of a map from the first up, `#` impassable, a start, targets, and one of them that a walk joins to
/// the start. Each map has several areas, and targets in two: some in the start's, and one in another.
const MAPS: &str = "\
..####.../..##.###./.#....#.#/####...../#.#.#..##/..#.#..#./#...#...#/....#.###;3,2;2,7 6,6 8,3;8,3
..###.#./....#.../.#.#..../..#..#.#/##...#../..#...../#.#..###/.##....#;5,0;3,6 5,1 2,2 6,4;5,1
#.#..#../.#...#.#/#####.../.#..##../.#..##../..#.#...;6,0;6,5 7,4 4,1 7,5;7,4
.######./..#.##.#/#.##..#./.....#../.##..###/#.#.#.##/.###...#;0,3;2,3 5,5 4,2 1,3;2,3
..##.#./.####../....###/###..##/.....##/#.....#/.#.#..#/#.###..;4,5;2,5 6,0 6,7 4,6;2,5
..#.#.../.....##./##.#.#.#/.##.###./##.#...#/#......#/.#..#...;2,6;4,5 4,4 3,0 6,5;6,5
....#.../.#....#./.......#/....#.#./..######/..#...../.#.#..../#.#.....;6,2;3,7 5,3 0,1 5,1;5,3
#.#....../.#.###..#/......#../#.##..#../.##....../.##...##./#..#...#./.........;1,6;4,0 6,1 0,4 6,0;6,1
.....#./..#.#.#/.#..#../##.#..#/...##.#/#...##./.....##;0,4;5,1 3,5 3,0 1,5;1,5
...#.##./....#.../.....#.#/...#.#.#/.#..#..#/#...##.#;0,2;1,3 2,4 1,5 6,4;1,5
";

/// Lines as in `MAPS`, the step to take at the start, and how many cells have a distance, the greatest of the distances and
/// their sum, as `flow` of `examples/check.py` has them.
const SUMMARIES: [(&str, Option<Dir>, FlowSummary); 4] = [
    (
        ".../.../...;0,0;2,2;2,2",
        Some(Dir::NE),
        FlowSummary {
            cells: 9,
            farthest: 185_364,
            sum: 987_698,
        },
    ),
    (
        ".../.#./...;0,0;2,2;2,2",
        Some(Dir::N),
        FlowSummary {
            cells: 8,
            farthest: 262_144,
            sum: 1_048_576,
        },
    ),
    (
        ".../.../...;1,1;1,1;1,1",
        None,
        FlowSummary {
            cells: 9,
            farthest: 92_682,
            sum: 632_872,
        },
    ),
    (
        "...../.###./.....;2,2;1,0 2,0 3,0;1,0",
        Some(Dir::E),
        FlowSummary {
            cells: 12,
            farthest: 327_680,
            sum: 1_638_400,
        },
    ),
];

/// Whether a walk leads from the cell to the end, which is hit.
fn can_reach<M: Areas, A: Aim>(map: &M, class: Class, cell: Cell, aim: &A, end: Cell) -> bool {
    if !map.passable(class, cell) {
        return false;
    }
    if !map.passable(class, end) {
        return false;
    }
    if !aim.hits(map.size(), end) {
        return false;
    }
    map.area(class, cell) == map.area(class, end)
}

/// Whether the walk that the field gives from the cell costs the cell's distance.
fn follows_at_its_cost(alloc: Global, field: &Field, cell: Cell) -> bool {
    let Some(far) = field.far(cell) else {
        return false;
    };
    match field.follow(alloc, cell) {
        Ok(walk) => walk.len() < 1_000 && cost(&walk) == far,
        Err(_) => false,
    }
}

/// Whether the field has the distance of the cell that a search from it finds, and none where no walk leads to the end.
fn agrees<M: Areas, A: Aim>(
    alloc: Global,
    map: &M,
    aim: &A,
    end: Cell,
    field: &Field,
    cell: Cell,
) -> bool {
    let class = Class::new(0);
    if !can_reach(map, class, cell, aim, end) {
        return field.far(cell).is_none();
    }
    match plain_search(alloc, map, class, cell, aim) {
        Ok(found) => {
            field.far(cell) == Some(found.cost) && follows_at_its_cost(alloc, field, cell)
        }
        Err(_) => false,
    }
}

/// The field of a start. None where no walk leads from it to the end, or there is no memory.
fn field_from<M: FreeCells + Areas, A: Aim>(
    alloc: Global,
    map: &M,
    start: Cell,
    aim: &A,
    end: Cell,
) -> Option<Field> {
    let class = Class::new(0);
    if !can_reach(map, class, start, aim, end) {
        return None;
    }
    match field(alloc, map, class, start, aim) {
        Ok(field) => Some(field),
        Err(_) => None,
    }
}

/// Whether the field of a start agrees with a search from each cell of the map. None where there is no field.
fn agrees_everywhere<M: FreeCells + Areas, A: Aim>(
    alloc: Global,
    map: &M,
    start: Cell,
    aim: &A,
    end: Cell,
) -> Option<bool> {
    let size = map.size();
    let field = field_from(alloc, map, start, aim, end)?;
    for j in 0..size.h {
        for i in 0..size.w {
            if !agrees(alloc, map, aim, end, &field, Cell::new(i, j)) {
                return Some(false);
            }
        }
    }
    Some(true)
}

/// Whether the field of a line agrees with a search from each cell of its map. None where the line has no field.
fn agrees_on_the_map(alloc: Global, line: &str) -> Option<bool> {
    let [map, start, targets, end, _, _, _] = fields_of(line);
    let map = drawn_version(alloc, map)?;
    let (start, end) = (parsed_cell(start)?, parsed_cell(end)?);
    let targets = parsed_targets(alloc, targets)?;
    let size = map.size();
    if map.classes() < 1 || !targets.rect.is_inside(size) || !size.has(start) || !size.has(end) {
        return None;
    }
    agrees_everywhere(alloc, &map, start, &targets, end)
}

/// The step to take at the start of a line, and the summary of its field.
fn told_by(alloc: Global, line: &str) -> Option<(Option<Dir>, FlowSummary)> {
    let [map, start, targets, end, _, _, _] = fields_of(line);
    let map = drawn_version(alloc, map)?;
    let (start, end) = (parsed_cell(start)?, parsed_cell(end)?);
    let targets = parsed_targets(alloc, targets)?;
    let size = map.size();
    if map.classes() < 1 || !targets.rect.is_inside(size) || !size.has(start) || !size.has(end) {
        return None;
    }
    let field = field_from(alloc, &map, start, &targets, end)?;
    Some((field.next(start), field.summary()))
}

#[test]
fn distances_are_those_of_searches(rt: HostRuntime) {
    for line in MAPS.lines() {
        assert!(rt; agrees_on_the_map(rt.alloc(), line) == Some(true), "{line}");
    }
}

#[test]
fn summaries_are_as_the_rows_say(rt: HostRuntime) {
    for (line, first, summary) in SUMMARIES {
        assert!(rt;
            told_by(rt.alloc(), line) == Some((first, summary)),
            "{line}"
        );
    }
}
