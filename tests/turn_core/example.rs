//! The example in the head of the crate.

use class_config::{ClassName, ClassTable, PassabilityClass};
use fixed_point::Fixed;
use goal_shapes::{Goal, GoalSpec};
use grid_versions::{BaseRects, MapSpec};
use nav_types::{Cost, Size};
use posts::{empty_lists, push_post};
use std::test::*;
use turn_core::{Answer, OneThread, PathRequest, Post, Reply, Request, bare_version};

#[test]
fn example(rt: HostRuntime) {
    let alloc = rt.alloc();
    let navcells = |count: i32| Fixed::from_raw(65_536 * count);
    let class = ClassName::new(b"unit").expect(&rt, "a name");
    let clearance = navcells(0);
    let classes = ClassTable::new(
        alloc,
        &[PassabilityClass {
            name: class,
            clearance,
        }],
    );
    let classes = classes.ok().expect(&rt, "a table of one class");
    let size = Size::new(5, 4).expect(&rt, "sides from 1 to 2048");
    let map = MapSpec::new(3, size, 1, classes, BaseRects::new(alloc)).expect(&rt, "a map");

    // In its first turn the only caller asks for a path.
    let goal = GoalSpec::Plain(Goal::Point {
        x: navcells(4),
        z: navcells(3),
    });
    let path = Request::Path(PathRequest {
        class,
        x: navcells(0),
        z: navcells(0),
        goal,
    });
    let mut lists = empty_lists(alloc, 1).expect(&rt, "memory");
    push_post(&mut lists, 0, Post::Ask(path)).expect(&rt, "memory");

    let version = bare_version(alloc, &map).expect(&rt, "memory");
    let mut thread = OneThread::new();
    let answered = thread
        .answer_turn(alloc, &version, &lists.into())
        .expect(&rt, "memory");
    let Some(Reply::Answer(Answer::Path(path))) = answered
        .replies
        .replies
        .get(0)
        .and_then(|its| its.get(0))
    else {
        panic!(rt; "no path")
    };
    // Three diagonal steps and a straight one. `answered.after` is the version for the next turn.
    assert!(rt; path.cost == Cost(3 * 92_682 + 65_536) && !path.near);
}
