//! The example in the head of the crate.

use fixed_point::Fixed;
use goal_shapes::{Goal, check, contains, remoteness};
use nav_types::{Cell, Size};
use std::test::*;

#[test]
fn example(rt: HostRuntime) {
    let map = Size::new(12, 8).expect(&rt, "sides from 1 to 2048");
    let navcells = |count: i32| Fixed::from_raw(65_536 * count);
    let circle = Goal::Circle {
        x: navcells(6),
        z: navcells(4),
        r: navcells(2),
    };
    assert!(rt; check(circle, map) == Ok(circle));
    assert!(rt; contains(&circle, Cell::new(4, 4)) && !contains(&circle, Cell::new(2, 4)));
    // Of cells that are no goal cells the one closer to the goal is less remote.
    assert!(rt; remoteness(&circle, Cell::new(2, 4)) < remoteness(&circle, Cell::new(1, 4)));
}
