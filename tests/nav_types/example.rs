//! The example in the head of the crate.

use nav_types::{Cell, Chunk, Dir, Size, neighbour};
use std::test::*;

#[test]
fn example(rt: HostRuntime) {
    let size = Size::new(120, 80).expect(&rt, "sides from 1 to 2048");
    let corner = Cell::new(0, 0);
    assert!(rt; neighbour(size, corner, Dir::NE) == Some(Cell::new(1, 1)));
    assert!(rt; neighbour(size, corner, Dir::W).is_none());
    // Costs are in 65,536ths of a navcell. A chunk has 96 by 96 navcells.
    assert!(rt; Dir::N.cost() == 65_536 && Dir::NE.cost() == 92_682);
    assert!(rt; Cell::new(100, 7).chunk() == Chunk { ci: 1, cj: 0 });
}
