//! All bits of the planes of a map that is wider and higher than a word, also after a change, and the runs over them
//! against those cell by cell.

use crate::fixtures::figures::goal_of;
use crate::fixtures::maps::holds;
use crate::fixtures::versions::{after, version_of};
use crate::fixtures::views::{stop_of, stop_within};
use class_planes::{ChangedPart, ClassPlane, PlaneRuns, Planes};
use goal_shapes::{Goal, check};
use grid_versions::Version;
use jump_scan::{CellRuns, Runs};
use nav_types::{Cell, Class, Dir, Rect, Size, View};
use std::alloc::Global;

/// The size of the map.
const SIDES: [u16; 2] = [130, 70];

/// Whether the cell is none of those at the ends of words that are blocked.
fn is_open(i: u16, j: u16) -> bool {
    let blocked = i == 63 || i == 64 || i == 127 || i == 128 || j == 63 || j == 64;
    !blocked || (u32::from(i) + 2 * u32::from(j)) % 5 == 0
}

/// The version of the map with the blocked cells.
fn blocked(alloc: Global) -> Option<Version> {
    let mut cells = Vec::new(alloc);
    for j in 0..SIDES[1] {
        for i in 0..SIDES[0] {
            if !is_open(i, j) {
                cells.push((Rect::of_cell(Cell::new(i, j)), 1)).ok()?;
            }
        }
    }
    version_of(alloc, SIDES, (1, "0"), &cells)
}

/// Whether the bit of the place is set. Past the last word none is.
fn is_set(words: &[u64], place: u16) -> bool {
    match words.get(usize::from(place) / 64) {
        Some(word) => (*word >> (place % 64)) & 1 == 1,
        None => false,
    }
}

/// Whether the cell lies in the map, is open, and the wall does not hold it.
fn is_free(size: Size, wall: Rect, cell: Cell) -> bool {
    size.has(cell) && is_open(cell.i, cell.j) && !holds(wall, cell)
}

/// The first cell, of the map or past its border, whose bit in its row or its column is wrong, where no cell of the wall
/// is passable.
fn wrong_cell(plane: &ClassPlane, wall: Rect) -> Option<Cell> {
    let size = plane.size();
    for j in 0..size.h + 1 {
        let row = plane.row_words(j);
        for i in 0..200 {
            if is_set(row, i) != is_free(size, wall, Cell::new(i, j)) {
                return Some(Cell::new(i, j));
            }
        }
    }
    for i in 0..size.w + 1 {
        let column = plane.column_words(i);
        for j in 0..200 {
            if is_set(column, j) != is_free(size, wall, Cell::new(i, j)) {
                return Some(Cell::new(i, j));
            }
        }
    }
    None
}

/// Whether the version has a plane of the map with all bits right.
fn is_plane_right(version: &Version, wall: Rect) -> bool {
    match version.planes().plane(Class::new(0)) {
        Some(plane) => {
            let size = plane.size();
            [size.w, size.h] == SIDES && wrong_cell(plane, wall).is_none()
        }
        None => false,
    }
}

/// No cell.
const NOWHERE: Rect = Rect {
    i0: 1,
    j0: 1,
    i1: 0,
    j1: 0,
};

/// The cells that a square over words and bands covers.
const WALL: Rect = Rect {
    i0: 30,
    j0: 31,
    i1: 128,
    j1: 64,
};

/// This square, as it is added.
const WALL_ADDED: &str = "add 1 1 square 5210112 3145728 65536 0 3227648 1097728";

/// Whether all bits are right before and after the square comes. None where there is no memory.
fn are_planes_right(alloc: Global) -> Option<bool> {
    let version = blocked(alloc)?;
    let next = after(&version, alloc, WALL_ADDED)?;
    Some(is_plane_right(&version, NOWHERE) && is_plane_right(&next.version, WALL))
}

#[test]
fn all_bits_are_those_of_the_cells(rt: HostRuntime) {
    assert!(rt; are_planes_right(rt.alloc()) == Some(true));
}

/// The first direction in which the runs by words of some planes and by cells from the cell have unlike stops.
fn unlike_from(version: &Version, planes: &Planes, from: Cell, goal: &Goal) -> Option<Dir> {
    let class = Class::new(0);
    let by_words = PlaneRuns::new(version, planes, Class::new(0));
    let by_cells = CellRuns::new(version);
    for dir in Dir::ALL {
        if stop_of(&by_words, class, from, dir, goal)
            != stop_of(&by_cells, class, from, dir, goal)
        {
            return Some(dir);
        }
        if stop_within(&by_words, class, from, dir, goal, 5)
            != stop_within(&by_cells, class, from, dir, goal, 5)
        {
            return Some(dir);
        }
    }
    None
}

/// The first passable cell from which the runs have unlike stops in some direction.
fn unlike(version: &Version, planes: &Planes, goal: &Goal) -> Option<(Cell, Dir)> {
    let size = version.size();
    if version.classes() < 1 {
        return None;
    }
    for j in 0..size.h {
        for i in 0..size.w {
            let cell = Cell::new(i, j);
            if version.passable(Class::new(0), cell) {
                if let Some(dir) = unlike_from(version, planes, cell, goal) {
                    return Some((cell, dir));
                }
            }
        }
    }
    None
}

/// Whether the runs stop at the same cells, where they look for the goal of a text. None where that is no sound goal.
fn stop_alike(version: &Version, planes: &Planes, goal: &str) -> Option<bool> {
    let Ok(goal) = check(goal_of(goal)?, version.size()) else {
        return None;
    };
    Some(unlike(version, planes, &goal).is_none())
}

#[test]
fn runs_stop_at_the_same_cells_by_words_and_by_cells(rt: HostRuntime) {
    let Some(version) = blocked(rt.alloc()) else {
        panic!(rt; "no map");
    };
    // one cell, and the cells from (60, 30) to (90, 50)
    for goal in [
        "point 8486912 2654208",
        "square 4947968 2654208 65536 0 1015807 688127",
    ] {
        assert!(rt;
            stop_alike(&version, version.planes(), goal) == Some(true),
            "{goal}"
        );
    }
}

/// The first passable cell beside which other cells are passable by words than by cells.
fn unlike_beside(version: &Version) -> Option<Cell> {
    let (class, size) = (Class::new(0), version.size());
    let by_words = PlaneRuns::new(version, version.planes(), Class::new(0));
    let by_cells = CellRuns::new(version);
    for j in 0..size.h {
        for i in 0..size.w {
            let cell = Cell::new(i, j);
            if version.passable(Class::new(0), cell)
                && by_words.beside(class, cell) != by_cells.beside(class, cell)
            {
                return Some(cell);
            }
        }
    }
    None
}

/// Whether there is none on the map with the blocked cells, and none on the open map, where the cells at the ends of words
/// have free cells beside them. None where there is no memory.
fn are_alike_beside(alloc: Global) -> Option<bool> {
    let blocked = blocked(alloc)?;
    let open = version_of(alloc, SIDES, (1, "0"), &[])?;
    Some(unlike_beside(&blocked).is_none() && unlike_beside(&open).is_none())
}

#[test]
fn cells_beside_a_cell_are_the_same_by_words_and_by_cells(rt: HostRuntime) {
    assert!(rt; are_alike_beside(rt.alloc()) == Some(true));
}

/// The cells of a square that fills two bands of columns, and ends with the last row of a band.
const BANDS: Rect = Rect {
    i0: 32,
    j0: 10,
    i1: 95,
    j1: 31,
};

/// This square, as it is added.
const BANDS_ADDED: &str = "add 1 1 square 4194304 1376256 65536 0 2080768 704512";

/// Whether the planes of the map, brought up to date by a call of its own with the rows of a version after a square was
/// added over these cells, have all bits right, and runs over them stop where they do cell by cell. None where there is no
/// memory.
fn are_planes_updated(alloc: Global, edit: &str, wall: Rect) -> Option<bool> {
    let version = blocked(alloc)?;
    let next = after(&version, alloc, edit)?.version;
    let part = ChangedPart {
        rect: wall,
        classes: 1,
    };
    let planes = version.planes().updated(alloc, &next, &[part]).ok()?;
    let plane = planes.plane(Class::new(0))?;
    let alike = stop_alike(&next, &planes, "point 8486912 2654208")?;
    Some(wrong_cell(plane, wall).is_none() && alike)
}

#[test]
fn planes_are_brought_up_to_date(rt: HostRuntime) {
    assert!(rt; are_planes_updated(rt.alloc(), WALL_ADDED, WALL) == Some(true));
}

/// Along the lines behind a change runs stop elsewhere, also where these are the first of a band.
#[test]
fn runs_behind_a_change_that_ends_with_a_band_are_brought_up_to_date(rt: HostRuntime) {
    assert!(rt; are_planes_updated(rt.alloc(), BANDS_ADDED, BANDS) == Some(true));
}
