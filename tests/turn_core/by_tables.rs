//! Paths by searches that go by tables of landmarks: what they are within a cost, and how few jump states are opened, as
//! the tables tell that these earn.

use crate::fixtures::versions::{after, version_of};
use class_config::ClassName;
use fixed_point::Fixed;
use goal_shapes::{Goal, GoalSpec};
use grid_versions::Version;
use jump_search::Pool;
use nav_types::{Cell, Class, Cost, Rect, View};
use std::alloc::Global;
use std::test::*;
use turn_core::{Answer, PathRequest, Request, solve, solve_within};

/// The sides of a map with a pillar on each cell whose column and row are odd. Steps lead along the other rows and columns
/// alone, and at each of their 165 crossings a walk may turn.
const SIDES: [u16; 2] = [65, 9];

/// How many jump states two tables cost: each an eighth of the 67 by 11 cells that the map has with a border of one cell.
const PRICE: u64 = 184;

/// The row along which the path leads.
const MIDDLE: u16 = 4;

/// What the path costs: 64 straight steps.
const ALONG: Cost = Cost(65536 * 64);

/// The map, on which searches from the first cell of the path have earned two tables.
fn pillars(alloc: Global) -> Option<Version> {
    let mut cells = Vec::new(alloc);
    for j in 0..SIDES[1] {
        for i in 0..SIDES[0] {
            if i % 2 == 1 && j % 2 == 1 {
                cells.push((Rect::of_cell(Cell::new(i, j)), 1)).ok()?;
            }
        }
    }
    let map = version_of(alloc, SIDES, (1, "0"), &cells)?;
    if map.classes() < 1 {
        return None;
    }
    map.note_search(Class::new(0), Cell::new(0, MIDDLE), PRICE);
    Some(after(&map, alloc, "")?.version)
}

/// How many tables there are.
fn tables_of(version: &Version) -> usize {
    if version.classes() < 1 {
        return 0;
    }
    match version.landmarks(Class::new(0)) {
        Some(tables) => tables.made(),
        None => 0,
    }
}

/// The path along the middle row, from its first cell to its last one.
fn path_along() -> Option<Request> {
    Some(Request::Path(PathRequest {
        class: ClassName::new(b"ca")?,
        x: Fixed::centre(0),
        z: Fixed::centre(MIDDLE),
        goal: GoalSpec::Plain(Goal::Point {
            x: Fixed::centre(SIDES[0] - 1),
            z: Fixed::centre(MIDDLE),
        }),
    }))
}

/// How many tables there are after the path, where it goes straight along the row.
fn tables_after_path(alloc: Global, map: &Version) -> Option<usize> {
    let Ok(Answer::Path(path)) = solve(alloc, map, &path_along()?) else {
        return None;
    };
    if path.cost != ALONG {
        return None;
    }
    let next = after(map, alloc, "")?;
    Some(tables_of(&next.version))
}

/// With exact tables no crossing beside the way is opened, so that the search pays for no further tables.
#[test]
fn a_search_by_tables_opens_its_way_alone(rt: HostRuntime) {
    let Some(map) = pillars(rt.alloc()) else {
        panic!(rt; "no map");
    };
    assert!(rt; tables_of(&map) == 2);
    let told = tables_after_path(rt.alloc(), &map);
    assert!(rt; told == Some(2), "{told:?} tables after the path");
}

/// What the path costs where it costs at most so much; None where it is too far. None around it where there is another
/// answer.
fn cost_within(alloc: Global, map: &Version, most: u64) -> Option<Option<Cost>> {
    let mut pool = Pool::new(alloc).ok()?;
    match solve_within(alloc, map, &mut pool, &path_along()?, most).ok()? {
        Some(Answer::Path(path)) => Some(Some(path.cost)),
        Some(_) => None,
        None => Some(None),
    }
}

#[test]
fn a_path_by_tables_is_found_within_its_cost(rt: HostRuntime) {
    let Some(map) = pillars(rt.alloc()) else {
        panic!(rt; "no map");
    };
    assert!(rt; tables_of(&map) == 2);
    for (most, wanted) in [
        (ALONG.0, Some(ALONG)),
        (ALONG.0 + 1, Some(ALONG)),
        (ALONG.0 - 1, None),
    ] {
        assert!(rt;
            cost_within(rt.alloc(), &map, most) == Some(wanted),
            "within {most}"
        );
    }
}
