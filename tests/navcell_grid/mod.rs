use crate::fixtures::maps::drawn;
use nav_types::{Cell, Rect};
use navcell_grid::Grid;
use std::alloc::Global;

/// The map that is drawn so, with the cells of the rectangle made passable. None where that does not lie inside it.
fn cleared(alloc: Global, map: &str, rect: Rect) -> Option<Grid> {
    let mut grid = drawn(alloc, map)?;
    if !rect.is_inside(grid.size()) {
        return None;
    }
    grid.clear_rect(rect);
    Some(grid)
}

/// Whether both maps have the same cells.
fn are_alike(one: &Grid, other: &Grid) -> bool {
    one.size() == other.size()
        && (0..one.size().h).all(|j| {
            (0..one.size().w).all(|i| {
                let cell = Cell::new(i, j);
                one.size().has(cell) && other.size().has(cell) && one.get(cell) == other.get(cell)
            })
        })
}

#[test]
fn a_rectangle_is_cleared_and_no_cell_beside_it(rt: HostRuntime) {
    let rect = Rect {
        i0: 1,
        j0: 0,
        i1: 2,
        j1: 1,
    };
    let after = cleared(rt.alloc(), "####/#.##/####", rect);
    let wanted = drawn(rt.alloc(), "#..#/#..#/####");
    assert!(rt;
        matches!((&after, &wanted), (Some(after), Some(wanted)) if are_alike(after, wanted))
    );
}
