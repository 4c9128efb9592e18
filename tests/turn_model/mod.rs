//! Events of small machines, with what they answer.

use crate::fixtures::turns::{map_of, path_asked, point, stays, unit};
use grid_versions::EditReply;
use nav_types::{Cell, Cost, NoMemory};
use std::alloc::Global;
use std::test::*;
use turn_core::{Answer, Post, Reply};
use turn_model::{Core, Event, StepRefusal, Takes, Why};

/// The machine of a map of three columns and so many rows of navcells.
fn core_of(alloc: Global, rows: u16, callers: u8) -> Option<Core> {
    let map = map_of(alloc, 3, rows, callers, &[])?;
    Core::new(alloc, &map).ok()
}

/// Why a step is refused, where it is.
fn refusal(core: &mut Core, event: Event) -> Option<StepRefusal> {
    core.step(&event).err()
}

/// Why a stage of so many posts of each caller is refused, where it is.
fn stage_refusal(alloc: Global, core: &mut Core, counts: &[u64]) -> Option<StepRefusal> {
    let mut takes = Takes::new(alloc);
    match takes.extend(counts) {
        Ok(()) => refusal(core, Event::Stage { takes }),
        Err(NoMemory) => Some(StepRefusal::NoMemory),
    }
}

/// The refusal for a cause.
fn because(cause: Why) -> Option<StepRefusal> {
    Some(StepRefusal::NotEnabled(cause))
}

/// Posts a path from the first cell of the first row to its last. Whether it is posted.
fn posts_path(core: &mut Core) -> bool {
    let Some(path) = path_asked("default", 1, point(5)) else {
        return false;
    };
    let post = Post::Ask(path);
    refusal(core, Event::Post { caller: 0, post }) == None
}

/// Why the caller may not post a unit in the middle of the first row, where it may not.
fn unit_refusal(core: &mut Core, caller: u8) -> Option<StepRefusal> {
    let post = Post::Edit(unit(1, 3));
    refusal(core, Event::Post { caller, post })
}

/// The staged turn of one job runs and is delivered. Whether it is.
fn runs_turn(core: &mut Core) -> bool {
    refusal(core, Event::Start) == None
        && refusal(core, Event::Claim) == None
        && refusal(core, Event::Finish { job: 0 }) == None
        && refusal(core, Event::Deliver) == None
}

/// The next reply to a caller.
fn collected(core: &mut Core, caller: u8) -> Option<Reply> {
    match core.step(&Event::Collect { caller }) {
        Ok(reply) => reply,
        Err(_) => None,
    }
}

/// Whether the causes are those of a machine of two callers in its opening state.
fn has_opening_causes(alloc: Global, core: &mut Core) -> bool {
    unit_refusal(core, 2) == because(Why::Callers(2))
        && stage_refusal(alloc, core, &[]) == because(Why::Callers(2))
        && stage_refusal(alloc, core, &[0, 1]) == because(Why::Posted(1, 0))
        && refusal(core, Event::Claim) == because(Why::NoneRunning(0))
        && refusal(core, Event::Collect { caller: 2 }) == because(Why::Callers(2))
        && refusal(core, Event::Collect { caller: 1 }) == because(Why::Collected(0))
}

/// Whether the causes are those of a turn of one job that is staged, and then of one that runs beside an empty one.
fn has_turn_causes(alloc: Global, core: &mut Core) -> bool {
    stage_refusal(alloc, core, &[0, 0]) == because(Why::Staged(1))
        && refusal(core, Event::Deliver) == because(Why::NoneRunning(1))
        && refusal(core, Event::Start) == None
        && stage_refusal(alloc, core, &[0, 0]) == None
        && refusal(core, Event::Start) == because(Why::Running(1))
        && refusal(core, Event::Finish { job: 0 }) == because(Why::Claimed(0))
        && refusal(core, Event::Deliver) == because(Why::Unclaimed(0))
}

/// Whether the causes are those of a running turn of one job, which is claimed and then answered.
fn has_job_causes(core: &mut Core) -> bool {
    refusal(core, Event::Claim) == None
        && refusal(core, Event::Claim) == because(Why::AllClaimed(1))
        && refusal(core, Event::Deliver) == because(Why::Unanswered(0))
        && refusal(core, Event::Finish { job: 0 }) == None
        && refusal(core, Event::Finish { job: 0 }) == because(Why::Answered(0))
}

#[test]
fn an_edit_of_the_turn_counts_for_its_requests(rt: HostRuntime) {
    let alloc = rt.alloc();
    let mut core = core_of(alloc, 1, 2).expect(&rt, "the machine");
    assert!(rt; posts_path(&mut core) && unit_refusal(&mut core, 1) == None);
    assert!(rt; stage_refusal(alloc, &mut core, &[1, 1]) == None && runs_turn(&mut core));
    let path = collected(&mut core, 0);
    assert!(rt; stays(path.as_ref()));
    let edit = collected(&mut core, 1);
    assert!(rt; matches!(edit, Some(Reply::Edit(EditReply::Added(1)))));
    assert!(rt; refusal(&mut core, Event::Start) == because(Why::NoneStaged(1)));
}

#[test]
fn refused_events_have_their_causes(rt: HostRuntime) {
    let alloc = rt.alloc();
    let mut core = core_of(alloc, 1, 2).expect(&rt, "the machine");
    assert!(rt; has_opening_causes(alloc, &mut core));
    assert!(rt; posts_path(&mut core) && stage_refusal(alloc, &mut core, &[1, 0]) == None);
    assert!(rt; has_turn_causes(alloc, &mut core));
    assert!(rt; has_job_causes(&mut core));
}

/// Whether a path goes round the middle of the first row by the second.
fn goes_round(reply: Option<&Reply>) -> bool {
    let Some(Reply::Answer(Answer::Path(path))) = reply else {
        return false;
    };
    path.end == Cell::new(2, 0) && path.cost == Cost(4 * 65536) && path.waypoints.len() == 3
}

#[test]
fn a_turn_beside_a_running_one_stands_on_its_edits(rt: HostRuntime) {
    let alloc = rt.alloc();
    let mut core = core_of(alloc, 2, 1).expect(&rt, "the machine");
    assert!(rt; unit_refusal(&mut core, 0) == None);
    assert!(rt; stage_refusal(alloc, &mut core, &[1]) == None);
    assert!(rt; refusal(&mut core, Event::Start) == None);
    assert!(rt; posts_path(&mut core) && stage_refusal(alloc, &mut core, &[1]) == None);
    assert!(rt; refusal(&mut core, Event::Deliver) == None && runs_turn(&mut core));
    let edit = collected(&mut core, 0);
    assert!(rt; matches!(edit, Some(Reply::Edit(EditReply::Added(1)))));
    let path = collected(&mut core, 0);
    assert!(rt; goes_round(path.as_ref()));
}
