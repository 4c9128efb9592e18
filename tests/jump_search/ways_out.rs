//! Estimates of the way out of circles and turned rectangles, on an open map.

use crate::fixtures::figures::goal_of;
use goal_shapes::{Goal, check};
use jump_search::{CostlyEstimate, Disc, Estimate, TargetEstimate, TurnedRoom};
use nav_types::{Cell, Class, Size, View};
use navcell_grid::Grid;
use std::alloc::Global;
use walks::plain_search;

/// Goals that are what lies outside of a circle or of a turned rectangle, on a map of 16 by 16 navcells.
const INSIDE_OUT: [&str; 5] = [
    "not-circle 524288 524288 393216",
    "not-circle 491520 360448 327680",
    "not-square 524288 524288 46341 46341 294912 294912",
    "not-square 524288 524288 52429 39322 393216 131072",
    "not-square 557056 458752 46341 -46341 131072 327680",
];

/// The estimate of the way out of what such a goal leaves.
fn way_out(goal: &Goal) -> Option<CostlyEstimate<'_>> {
    match *goal {
        Goal::NotCircle { x, z, r } => Some(CostlyEstimate::OutOfDisc(Disc { x, z, r })),
        Goal::NotSquare(rectangle) => {
            Some(CostlyEstimate::OutOfTurned(TurnedRoom::new(rectangle)))
        }
        _ => None,
    }
}

/// What the ways to the goal of a text cost from all cells of an open map, and what they are estimated at, in all. None
/// where one is estimated at more than it costs, or the text is no such goal.
fn costs_and_estimates(alloc: Global, goal: &str) -> Option<(u64, u64)> {
    let map = Grid::new(alloc, Size::new(16, 16)?).ok()?;
    let size = map.size();
    let Ok(goal) = check(goal_of(goal)?, size) else {
        return None;
    };
    let ahead = TargetEstimate::Costly(way_out(&goal)?);
    let (mut costs, mut estimates) = (0, 0);
    for j in 0..size.h {
        for i in 0..size.w {
            let start = Cell::new(i, j);
            let found = plain_search(alloc, &map, Class::new(0), start, &goal).ok()?;
            let estimate = ahead.at_least(start);
            if estimate > found.cost.0 {
                return None;
            }
            costs += found.cost.0;
            estimates += estimate;
        }
    }
    Some((costs, estimates))
}

#[test]
fn a_way_out_costs_no_less_than_its_estimate(rt: HostRuntime) {
    for goal in INSIDE_OUT {
        let Some((costs, estimates)) = costs_and_estimates(rt.alloc(), goal) else {
            panic!(rt; "too high: {goal}");
        };
        assert!(rt; estimates > costs / 3, "{goal}: {estimates} of {costs}");
    }
}
