//! Small obstructions on a small grid.

use crate::fixtures::classes::table_of;
use crate::fixtures::figures::shape_of;
use class_config::ClassTable;
use clearance_raster::raster;
use nav_types::{Cell, Size};
use navcell_grid::Grid;
use obstruction_shapes::{Obstruction, check};
use std::alloc::Global;

/// A rectangle of 1 by 2 with its middle at (2.5, 2.5). With clearance 1 its rim meets the middle of (2, 0) exactly.
const BRICK: &str = "square 163840 163840 0 65536 65536 32768";

/// Class 0 has clearance 1, class 1 has 0, and bit 2 is of no class.
const CLASSES: &str =
    "[{\"name\":\"wide\",\"clearance\":\"1\"},{\"name\":\"thin\",\"clearance\":\"0\"}]";

/// Writes a shape with this mask into the grid, where it fits.
fn raster_shape(grid: &mut Grid, text: &str, mask: u16, classes: &ClassTable) {
    if let Some(shape) = shape_of(text) {
        if let Ok(shape) = check(shape, grid.size()) {
            raster(grid, &Obstruction { shape, mask }, classes);
        }
    }
}

/// A grid of 5 by 5 cells with a bit in two of them.
fn begun(alloc: Global) -> Option<Grid> {
    let mut grid = Grid::new(alloc, Size::new(5, 5)?).ok()?;
    if grid.size().has(Cell::new(1, 0)) {
        grid.or_span(0, 0, 1, 8);
    }
    Some(grid)
}

/// Whether the grid has the row, with these numbers.
fn row_is(grid: &Grid, j: u16, numbers: [u16; 5]) -> bool {
    j < grid.size().h && grid.row(j) == numbers.as_slice()
}

#[test]
fn classes_of_the_mask_get_their_cells(rt: HostRuntime) {
    let Some(classes) = table_of(rt.alloc(), CLASSES) else {
        panic!(rt; "no classes");
    };
    let Some(mut grid) = begun(rt.alloc()) else {
        panic!(rt; "no grid");
    };
    raster_shape(&mut grid, BRICK, 6, &classes);
    assert!(rt; row_is(&grid, 0, [8, 8, 0, 0, 0]));
    assert!(rt; row_is(&grid, 1, [0, 0, 2, 0, 0]));
    raster_shape(&mut grid, BRICK, 5, &classes);
    assert!(rt; row_is(&grid, 0, [8, 8, 1, 0, 0]));
    assert!(rt; row_is(&grid, 1, [0, 1, 3, 1, 0]));
    assert!(rt; row_is(&grid, 2, [0, 1, 3, 1, 0]));
    assert!(rt; row_is(&grid, 4, [0, 0, 1, 0, 0]));
}

/// A line of half length 10 from the middle of the first cell on, along a unit vector whose length is 255/256. Lengths
/// along it count 256/255 fold, so that it blocks the cell 10 columns away, which lies 9.96 along it, and not the next.
const SHORT_VECTOR: &str = "square 32768 32768 65280 0 655360 0";

/// The numbers of a row of twelve cells on which this line stands.
fn along_short_vector(alloc: Global, classes: &ClassTable) -> Option<Grid> {
    let mut grid = Grid::new(alloc, Size::new(12, 1)?).ok()?;
    raster_shape(&mut grid, SHORT_VECTOR, 2, classes);
    Some(grid)
}

#[test]
fn the_tip_along_a_short_vector_is_painted(rt: HostRuntime) {
    let Some(classes) = table_of(rt.alloc(), CLASSES) else {
        panic!(rt; "no classes");
    };
    let Some(grid) = along_short_vector(rt.alloc(), &classes) else {
        panic!(rt; "no grid");
    };
    assert!(rt; grid.row(0) == [2, 2, 2, 2, 2, 2, 2, 2, 2, 2, 2, 0].as_slice());
}
