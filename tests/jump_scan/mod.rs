//! Stops and successors on small maps that are drawn as text.

use crate::fixtures::aims::parsed_targets;
use crate::fixtures::maps::drawn;
use crate::fixtures::texts::{fields_of, parsed_cell};
use crate::fixtures::views::{stop_of, stop_within};
use jump_scan::{CellRuns, successors};
use nav_types::{Class, Dir, DirSet, View};
use std::alloc::Global;

/// In each line the rows of a map from the first up, `#` impassable, the cells that are hit, where a run begins, its
/// direction, and its stop, or `-` where it has none. `tools/test_lines.py runs` makes such a line.
const RUNS: &str = "\
...../...../...../.#.../...../.....;3,0 4,4;2,4;E;4,4
....#../......./......./...#..#/...#...;6,1 2,3;2,0;N;2,3
..#..../......./..#..../..#...#;1,1;6,1;W;1,1
...../...../...../.#.../...../.....;3,0 4,4;3,5;S;3,0
....##/#.#.../.#.##./##...#/##....;3,0;5,1;W;3,1
......../....#.../#.#.#..#/...#...#/#.#.#.../.###....;1,3;6,0;N;6,4
..#.../#....#/..##../#....#/.....#/...#../.#....;5,0 1,5;3,1;W;1,1
..#...../....#..#/##....../..#...../#..#.#../.#....#./....#...;3,1;7,2;N;7,6
.....#../.....#../...#..../......../..#...../.#....../.#......;5,2;6,2;E;-
......./....###/#....#./...#.##;4,0 6,0 1,2 3,2;2,2;S;-
...../...../...../.#.../...../.....;3,0 4,4;1,1;S;-
....../##...#/....../...#..;0,0 3,0 3,2 5,3;3,1;NE;5,3
......./....###/#....#./...#.##;4,0 6,0 1,2 3,2;3,0;NW;1,2
.#...#.#/..#....#/..#.....;3,0;5,2;SW;3,0
..../..../..../..#./.#..;1,1 3,2 3,4;1,0;NE;3,2
..#...../....#..#/##....../..#...../#..#.#../.#....#./....#...;3,1;5,1;NE;7,3
.....#../.....#../...#..../......../..#...../.#....../.#......;5,2;0,3;SE;2,1
...../...../...../.#.../...../.....;3,0 4,4;2,1;NE;4,3
....#.../......../.......#/......#./..#...../......../........;4,0 7,6;3,1;NE;5,3
.##...../###...../.##.#.../.#.#....;3,2;6,1;SW;-
.###.#../.#....##/......../...#..../.....#..;1,3 2,4;5,2;SW;-
......../....#.../#.#.#..#/...#...#/#.#.#.../.###....;1,3;5,2;SE;-
....../..#.../......;1,0 1,1 3,1 2,2;4,1;NE;-
";

/// In each line the rows of a map, a cell, the direction of the step that came to it, or `-` for a start, and the
/// successors. `tools/test_lines.py successors` makes such a line.
const SUCCESSORS: &str = "\
....#/#.#../.#.#./##.../..#.#/..#.#;3,4;W;N
.#..../..#.../..#..#;5,0;W;N W NW
.###.#../.#....##/......../...#..../.....#..;6,3;S;S W SW
....#.../......../.......#/......#./..#...../......../........;7,1;W;S W SW
......../......../.....#..;3,2;S;E S W SE SW
...#/..../#.#.;3,2;W;S
..#..../......./..#..../..#...#;5,3;NW;W
....#/#.#../.#.#./##.../..#.#/..#.#;3,0;SE;
....../##...#/....../...#..;5,2;SW;W
....#.../......../.......#/......#./..#...../......../........;6,2;-;S W SW
....../##...#/....../.....#/#.#.#./.#.#.#/..#...;2,3;-;E S W SE SW
....../..#.../......;1,2;E;E
...##./....#./....../......;3,1;W;W
";

fn parsed_dir(text: &str) -> Option<Dir> {
    match text {
        "N" => Some(Dir::N),
        "E" => Some(Dir::E),
        "S" => Some(Dir::S),
        "W" => Some(Dir::W),
        "NE" => Some(Dir::NE),
        "SE" => Some(Dir::SE),
        "SW" => Some(Dir::SW),
        "NW" => Some(Dir::NW),
        _ => None,
    }
}

/// Whether a line of `RUNS` says what the scan does. None where it is not in the form of the table.
fn stops_as_the_line_says(alloc: Global, line: &str) -> Option<bool> {
    let [map, cells, from, dir, stop, ..] = fields_of(line);
    let class = Class::new(0);
    let from = parsed_cell(from)?;
    let dir = parsed_dir(dir)?;
    let targets = parsed_targets(alloc, cells)?;
    let map = drawn(alloc, map)?;
    if !map.size().has(from) || !map.passable(class, from) || !targets.rect.is_inside(map.size()) {
        return None;
    }
    let runs = CellRuns::new(&map);
    Some(stop_of(&runs, class, from, dir, &targets) == parsed_cell(stop))
}

/// Whether the diagonal run of a line of `RUNS` stops within as many steps as lead to its stop, and within one more, but not
/// within one less. None where the run is straight or has no stop, or the line is not in the form of the table.
fn stops_with_its_last_step(alloc: Global, line: &str) -> Option<bool> {
    let [map, cells, from, dir, stop, ..] = fields_of(line);
    let class = Class::new(0);
    let (from, stop) = (parsed_cell(from)?, parsed_cell(stop)?);
    let dir = parsed_dir(dir)?;
    let targets = parsed_targets(alloc, cells)?;
    let map = drawn(alloc, map)?;
    if dir.is_straight() || !map.size().has(from) || !targets.rect.is_inside(map.size()) {
        return None;
    }
    let runs = CellRuns::new(&map);
    let steps = from.i.abs_diff(stop.i);
    for (most, wanted) in [
        (steps, Some(stop)),
        (steps.saturating_add(1), Some(stop)),
        (steps.saturating_sub(1), None),
    ] {
        if stop_within(&runs, class, from, dir, &targets, most) != wanted {
            return Some(false);
        }
    }
    Some(true)
}

/// Whether a line of `SUCCESSORS` says what the successors are. None where it is not in the form of the table.
fn goes_on_as_the_line_says(alloc: Global, line: &str) -> Option<bool> {
    let [map, cell, arrived, wanted, ..] = fields_of(line);
    let cell = parsed_cell(cell)?;
    let mut dirs = DirSet::new();
    for word in wanted.split_whitespace() {
        dirs = dirs.with(parsed_dir(word)?);
    }
    let map = drawn(alloc, map)?;
    if !map.size().has(cell) {
        return None;
    }
    Some(successors(&map, Class::new(0), cell, parsed_dir(arrived)) == dirs)
}

#[test]
fn runs_stop_as_the_table_says(rt: HostRuntime) {
    for line in RUNS.lines() {
        assert!(rt;
            stops_as_the_line_says(rt.alloc(), line) == Some(true),
            "{line}"
        );
    }
}

#[test]
fn a_bounded_run_looks_at_its_last_step(rt: HostRuntime) {
    let mut count: u32 = 0;
    for line in RUNS.lines() {
        let told = stops_with_its_last_step(rt.alloc(), line);
        assert!(rt; told != Some(false), "{line}");
        if told.is_some() {
            count += 1;
        }
    }
    assert!(rt; count == 8, "{count} diagonal runs have a stop");
}

#[test]
fn cells_have_the_successors_of_the_table(rt: HostRuntime) {
    for line in SUCCESSORS.lines() {
        assert!(rt;
            goes_on_as_the_line_says(rt.alloc(), line) == Some(true),
            "{line}"
        );
    }
}
