//! Paths to goals that are turned inside out, whose searches go by the way out of the room about the start.

use crate::fixtures::figures::goal_of;
use crate::fixtures::versions::drawn_version;
use class_config::ClassName;
use fixed_point::Fixed;
use goal_reach::{Target, made_reachable, room_in};
use goal_shapes::{Goal, GoalSpec, check};
use grid_versions::Version;
use nav_types::{Cell, Class, View};
use std::alloc::Global;
use std::test::*;
use turn_core::{Answer, PathRequest, Request, solve};
use walks::plain_search;

/// Maps with walls, rooms, gaps and ways that lead round.
const WALLED: [&str; 4] = [
    "............/............/..########../..#......#../..#......#../..#......#../..#.....##../..####.###../\
        ............/............",
    ".#........#./...#.##.#.../.#.#....#.#./...##.##..../.#......#.#./...#.##.#.../.##.....##../....##...#../\
        ..#.....#.../#....#.....#",
    "............/............/............/............/............/............/............/............/\
        ............/............",
    "##########/#........#/#.######.#/#.#....#.#/#.#.##.#.#/#.#..#.#.#/#.####.#.#/#......#.#/########.#/..........",
];

/// Goals that are turned inside out, whose room is none, reaches past the map on a side or lies within it, along the axes
/// of the map and across them.
const INSIDE_OUT: [&str; 10] = [
    "not-circle 393216 327680 32768",
    "not-circle 393216 327680 262144",
    "not-circle 360448 294912 327680",
    "not-circle 65536 65536 524288",
    "not-circle 589824 65536 458752",
    "not-square 393216 327680 65536 0 262144 229376",
    "not-square 327680 327680 65536 0 131072 268435456",
    "not-square 393216 327680 46341 46341 262144 327680",
    "not-square 229376 131072 52429 39322 393216 393216",
    "not-square 98304 425984 46341 -46341 524288 262144",
];

/// What a map's paths to a goal are found to be: how many differ from those of a plain search, and how many start in the
/// goal's room and lead on.
#[derive(Drop)]
struct Tally {
    others: u32,
    led_out: u32,
}

/// The middle of a column or row.
fn middle_of(place: u16) -> Fixed {
    Fixed::from_raw(65536 * i32::from(place) + 32768)
}

/// Asks for a path from the middle of a cell.
fn asked_from(cell: Cell, goal: &Goal) -> Option<Request> {
    Some(Request::Path(PathRequest {
        class: ClassName::new(b"ca")?,
        x: middle_of(cell.i),
        z: middle_of(cell.j),
        goal: GoalSpec::Plain(*goal),
    }))
}

/// Counts the path from a passable cell.
fn count_path(
    alloc: Global,
    map: &Version,
    start: Cell,
    goal: &Goal,
    tally: &mut Tally,
) -> Option<()> {
    let target = made_reachable(map, Class::new(0), start, goal);
    let plain = plain_search(alloc, map, Class::new(0), start, &target).ok()?;
    let Ok(Answer::Path(path)) = solve(alloc, map, &asked_from(start, goal)?) else {
        return None;
    };
    if path.end != plain.end
        || path.cost != plain.cost
        || path.waypoints.as_slice() != plain.waypoints.as_slice()
    {
        tally.others += 1;
    }
    let is_room = room_in(goal, map.size()).is_some_and(|room| room.contains(start));
    if matches!(target, Target::Goal(_)) && is_room && path.cost.0 > 0 {
        tally.led_out += 1;
    }
    Some(())
}

/// Counts the paths of a map to the goal of a text. None where the text is no sound goal.
fn count_paths(alloc: Global, map: &Version, goal: &str, tally: &mut Tally) -> Option<()> {
    let Ok(goal) = check(goal_of(goal)?, map.size()) else {
        return None;
    };
    for j in 0..map.size().h {
        for i in 0..map.size().w {
            let start = Cell::new(i, j);
            if map.passable(Class::new(0), start) {
                count_path(alloc, map, start, &goal, tally)?;
            }
        }
    }
    Some(())
}

#[test]
fn paths_out_of_a_goal_are_those_of_a_plain_search(rt: HostRuntime) {
    let mut tally = Tally {
        others: 0,
        led_out: 0,
    };
    for text in WALLED {
        let Some(map) = drawn_version(rt.alloc(), text) else {
            panic!(rt; "no map: {text}");
        };
        for goal in INSIDE_OUT {
            assert!(rt;
                count_paths(rt.alloc(), &map, goal, &mut tally).is_some(),
                "no paths: {goal}"
            );
            assert!(rt; tally.others == 0, "{goal} on {text}");
        }
    }
    assert!(rt; tally.led_out > 60, "{}", tally.led_out);
}
