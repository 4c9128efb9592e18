//! Requests and turns on maps of one row, with their answers.

mod by_tables;
mod example;
mod inside_out;

use crate::fixtures::turns::{
    answers_to, halves, map_of, path_asked, point, row_version, shared, stays, unit,
};
use class_config::ClassName;
use goal_shapes::{Goal, GoalSpec};
use grid_versions::{EditReply, Refusal, Version};
use nav_types::{Cost, NoMemory, Rect};
use posts::push_some;
use std::alloc::Global;
use std::test::*;
use turn_core::{
    Answer, Answerer, Jobs, Journal, OneThread, Post, Posts, ReadyTurn, RegionAnswer, RegionQuery,
    Reply, Report, Request, TurnPosts, TurnReplies, answer_turn, bare_version, one_thread, solve,
};

/// The goal that is a circle about a point of the row, in halves.
fn circle(x: i16, r: i16) -> GoalSpec {
    GoalSpec::Plain(Goal::Circle {
        x: halves(x),
        z: halves(1),
        r: halves(r),
    })
}

/// The goal about the obstruction of a number, by halves.
fn about(id: u32, grow: i16) -> GoalSpec {
    GoalSpec::Obstruction {
        id,
        grow: halves(grow),
    }
}

/// Asks for the region at a point of the row in halves.
fn region_asked(name: &str, x: i16) -> Option<Request> {
    let class = ClassName::new(name.as_bytes())?;
    Some(Request::Region(RegionQuery {
        class,
        x: halves(x),
        z: halves(1),
    }))
}

/// The posts of a caller who posts once.
fn posts_of(alloc: Global, post: Post) -> Option<Posts> {
    let mut posts = Posts::new(alloc);
    push_some(&mut posts, Some(post)).ok()?;
    Some(posts)
}

/// The turn of two callers on a row of three cells: the first asks for a path along it, and the second adds a unit in its
/// middle.
fn turn_of_two(alloc: Global) -> Option<TurnPosts> {
    let path = path_asked("default", 1, point(5))?;
    let mut turn = TurnPosts::new(alloc);
    turn.push(posts_of(alloc, Post::Ask(path))?).ok()?;
    turn.push(posts_of(alloc, Post::Edit(unit(1, 3)))?).ok()?;
    Some(turn)
}

/// The first reply to a caller.
fn reply_to(told: &TurnReplies, caller: usize) -> Option<&Reply> {
    told.replies.get(caller)?.get(0)
}

/// Whether these are the replies to the turn of two callers.
fn are_replies_to_two(told: Option<&TurnReplies>) -> bool {
    let Some(told) = told else {
        return false;
    };
    let tallies = told.tallies;
    let numbers = (
        tallies.regions,
        tallies.edges,
        tallies.areas,
        told.relabelled,
    );
    numbers == (2, 0, 2, 1)
        && stays(reply_to(told, 0))
        && matches!(reply_to(told, 1), Some(Reply::Edit(EditReply::Added(1))))
}

#[test]
fn a_later_caller_blocks_the_path_of_a_turn(rt: HostRuntime) {
    let alloc = rt.alloc();
    let turn = turn_of_two(alloc).expect(&rt, "the turn");
    let mut journal = Journal::new(alloc);
    assert!(rt; journal.push(turn).is_ok());
    let map = map_of(alloc, 3, 1, 2, &[]).expect(&rt, "the map");
    let all = one_thread(alloc, &map, &journal).expect(&rt, "the replies");
    assert!(rt; are_replies_to_two(all.get(0)));
}

#[test]
fn answers_are_moved_into_the_replies_of_a_ready_turn(rt: HostRuntime) {
    let alloc = rt.alloc();
    let version = row_version(alloc, 3, &[]).expect(&rt, "the version");
    let turn = turn_of_two(alloc).expect(&rt, "the turn");
    let Ok(ready) = ReadyTurn::new(alloc, &version, turn) else {
        panic!(rt; "the ready turn")
    };
    assert!(rt; shared(ready.jobs()).copy(alloc).is_ok());
    let Ok(answers) = answers_to(alloc, ready.version(), ready.jobs()) else {
        panic!(rt; "the answers")
    };
    assert!(rt; shared(&answers).len() == 1);
    let (posts, answered) = ready.answered(answers);
    assert!(rt; posts.len() == 2);
    assert!(rt; are_replies_to_two(Some(&answered.replies)));
}

/// The cost of the path along a row of so many cells, by this thread.
fn cost_along(alloc: Global, thread: &mut OneThread, cells: i16) -> Option<Cost> {
    let version = row_version(alloc, cells.unsigned_abs(), &[])?;
    let path = path_asked("default", 1, point(2 * cells - 1))?;
    let mut jobs = Jobs::new(alloc);
    push_some(&mut jobs, Some(path)).ok()?;
    let mut noted = thread
        .noted_answers(alloc, &version, &jobs, Report::Answers)
        .ok()?;
    match noted.answers.take_first()? {
        Answer::Path(path) => Some(path.cost),
        _ => None,
    }
}

#[test]
fn a_thread_answers_on_one_map_after_another(rt: HostRuntime) {
    let alloc = rt.alloc();
    let mut thread = OneThread::new();
    for cells in [3, 200, 2, 60] {
        let cost = cost_along(alloc, &mut thread, cells);
        let steps = u64::from(cells.unsigned_abs()) - 1;
        assert!(rt; cost == Some(Cost(65536 * steps)));
    }
    // Whole turns too, by a thread that has answered and by a new one.
    let map = map_of(alloc, 3, 1, 2, &[]).expect(&rt, "the map");
    let version = bare_version(alloc, &map).expect(&rt, "the version");
    let turn = turn_of_two(alloc).expect(&rt, "the turn");
    let after = thread.answer_turn(alloc, &version, &turn);
    assert!(rt; are_replies_to_two(after.ok().as_ref().map(|told| &told.replies)));
    let alone = answer_turn(alloc, &version, &turn);
    assert!(rt; are_replies_to_two(alone.ok().as_ref().map(|told| &told.replies)));
}

/// Whether a request on a version is refused for this cause.
fn is_refused(alloc: Global, version: &Version, request: &Request, cause: Refusal) -> bool {
    match solve(alloc, version, request) {
        Ok(Answer::Refused(refusal)) => refusal == cause,
        _ => false,
    }
}

#[test]
fn refusals_come_in_their_order(rt: HostRuntime) {
    let alloc = rt.alloc();
    let version = row_version(alloc, 3, &[]).expect(&rt, "the version");
    // `circle(-1, -1)` lies outside the map, and its radius is out of its limits.
    for (name, x, goal, cause) in [
        ("other", -1, circle(-1, -1), Refusal::UnknownClass),
        ("default", -1, circle(-1, -1), Refusal::StartOutside),
        ("default", 6, circle(-1, -1), Refusal::StartOutside),
        ("default", 1, circle(-1, -1), Refusal::BadShape),
        ("default", 1, circle(-1, 1), Refusal::GoalOutside),
        ("default", 1, about(7, 7681), Refusal::BadShape),
        ("default", 1, about(7, -1), Refusal::BadShape),
        ("default", 1, about(7, 7680), Refusal::UnknownId),
    ] {
        let path = path_asked(name, x, goal).expect(&rt, "the path");
        assert!(rt;
            is_refused(alloc, &version, &path, cause),
            "{name} {x} {cause:?}"
        );
    }
    for (name, x, cause) in [
        ("other", -1, Refusal::UnknownClass),
        ("default", 6, Refusal::StartOutside),
    ] {
        let region = region_asked(name, x).expect(&rt, "the region");
        assert!(rt;
            is_refused(alloc, &version, &region, cause),
            "{name} {x} {cause:?}"
        );
    }
}

/// The answer to a request on a version.
fn answer_to(alloc: Global, version: &Version, request: Option<Request>) -> Option<Answer> {
    let request = request?;
    let mut jobs = Jobs::new(alloc);
    push_some(&mut jobs, Some(request)).ok()?;
    let mut answers = answers_to(alloc, version, &jobs).ok()?;
    answers.take_first()
}

/// The answer to a path from the first cell.
fn path_answer(alloc: Global, version: &Version, goal: GoalSpec) -> Option<Answer> {
    let path = path_asked("default", 1, goal)?;
    answer_to(alloc, version, Some(path))
}

/// The answer to a region at a point of the row in halves.
fn region_answer(alloc: Global, version: &Version, x: i16) -> Option<Answer> {
    let region = region_asked("default", x)?;
    answer_to(alloc, version, Some(region))
}

#[test]
fn no_passable_cell_is_nowhere(rt: HostRuntime) {
    let alloc = rt.alloc();
    let row = Rect {
        i0: 0,
        j0: 0,
        i1: 2,
        j1: 0,
    };
    let version = row_version(alloc, 3, &[(row, 1)]).expect(&rt, "the version");
    assert!(rt;
        matches!(
            path_answer(alloc, &version, point(5)),
            Some(Answer::Nowhere)
        )
    );
    // Refusals come before it.
    assert!(rt;
        matches!(
            path_answer(alloc, &version, about(1, 0)),
            Some(Answer::Refused(Refusal::UnknownId))
        )
    );
}

#[test]
fn regions_are_those_of_the_cell_itself(rt: HostRuntime) {
    let alloc = rt.alloc();
    let second = Rect {
        i0: 1,
        j0: 0,
        i1: 1,
        j1: 0,
    };
    let version = row_version(alloc, 100, &[(second, 1)]).expect(&rt, "the version");
    for (x, ci, region, area) in [(1, 0, 1, 1), (3, 0, 0, 0), (5, 0, 2, 2), (199, 1, 1, 2)] {
        let expected = RegionAnswer {
            ci,
            cj: 0,
            region,
            area,
        };
        assert!(rt;
            matches!(
                region_answer(alloc, &version, x),
                Some(Answer::Region(found)) if found == expected
            ),
            "{x}"
        );
    }
}
