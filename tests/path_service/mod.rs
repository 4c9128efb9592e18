//! A service whose turns are staged beside each other.

use crate::fixtures::turns::{map_of, path_asked, point, stays, unit};
use grid_versions::{Edit, EditReply, Version};
use io_edges::{Gate, OpenGate};
use nav_types::{Cell, Cost, NoMemory};
use path_service::{Caller, Closed, Driver, EndedCallers, start_service};
use std::alloc::Global;
use std::sync::Wait;
use std::sync::atomic::{AtomicBool, AtomicU64, Ordering};
use std::test::*;
use std::thread;
use std::thread::Threads;
use turn_core::{Answer, Answerer, Jobs, NotedAnswers, OneThread, Post, Reply, Report};

/// Whether it is the first reply, with a path to the last navcell.
fn is_whole_path(collected: Option<(u64, Reply)>) -> bool {
    match collected {
        Some((0, Reply::Answer(Answer::Path(path)))) => {
            path.end == Cell::new(2, 0) && !path.near && path.cost == Cost(131_072)
        }
        _ => false,
    }
}

/// How many posts were staged beside a turn that ran, and whether a turn waited in vain for one.
#[derive(Drop)]
struct Held {
    posts: AtomicU64,
    gave_up: AtomicBool,
}

impl Gate for Held {
    fn pass(&self, _job: u64) {}

    fn staged(&self, posts: u64) {
        self.posts.fetch_add(posts, Ordering::SeqCst);
    }

    fn begun(&self, _caller: u8) {}
}

/// Waits until a post was staged, or for so long that one must have been.
fn hold(held: &Held) {
    for _ in 0..2_000_000_000u64 {
        if held.posts.load(Ordering::SeqCst) > 0 {
            return;
        }
        thread::yield_now();
    }
    held.gave_up.store(true, Ordering::SeqCst);
}

/// One who answers a turn once a post was staged beside it.
#[derive(Drop)]
struct Waiting<'a> {
    held: &'a Held,
    thread: OneThread,
}

impl<'a> Answerer for Waiting<'a> {
    ghost use Rattle.std.specs.Prelude.{⊤};

    ghost takes = { λ waiting count. ⊤ };

    fn noted_answers(
        &mut self,
        alloc: Global,
        version: &Version,
        jobs: &Jobs,
        report: Report,
    ) -> Result<NotedAnswers, NoMemory> {
        hold(self.held);
        self.thread.noted_answers(alloc, version, jobs, report)
    }
}

/// Starts and delivers the staged turn, and gives how many posts were staged beside it.
fn run_staged<A: Answerer + Send, G: Gate, R: Threads + Wait + Sync>(
    rt: &R,
    driver: &mut Driver,
    answerer: &mut A,
    gate: &G,
) -> Option<u64> {
    if driver.failed() || driver.staged().is_none() || driver.running().is_some() {
        return None;
    }
    let Ok(count) = driver.start(rt, answerer, gate) else {
        return None;
    };
    if driver.deliver(rt).is_ok() {
        Some(count)
    } else {
        None
    }
}

/// Stages what was posted, and gives how many posts that are.
fn stage_first<R: Threads + Wait + Sync>(rt: &R, driver: &mut Driver) -> Option<u64> {
    if driver.failed() || driver.staged().is_some() {
        return None;
    }
    driver.stage(rt).ok()
}

/// Runs the staged turn, whose jobs are held until a turn is staged beside it, and then that turn, and gives how many
/// posts were staged beside each.
fn run_both<R: Threads + Wait + Sync>(
    rt: &R,
    driver: &mut Driver,
    held: &Held,
) -> Option<(u64, u64)> {
    let mut waiting = Waiting {
        held,
        thread: OneThread::new(),
    };
    let first = run_staged(rt, driver, &mut waiting, held)?;
    let second = run_staged(rt, driver, &mut waiting, held)?;
    Some((first, second))
}

#[test]
fn a_turn_is_staged_beside_one_that_runs(rt: HostRuntime) -> Result<(), Fail> {
    let alloc: Global = rt.alloc();
    let map = map_of(alloc, 3, 1, 2, &[]).expect(&rt, "the map");
    let (mut driver, callers) = start_service(&rt, alloc, map)?;
    let mut callers = callers;
    let mut first = callers.take_first().expect(&rt, "the first caller");
    let mut second = callers.take_first().expect(&rt, "the second caller");
    let held = Held {
        posts: AtomicU64::new(0),
        gave_up: AtomicBool::new(false),
    };
    let path = path_asked("default", 1, point(5)).expect(&rt, "the path");
    assert!(rt; first.post(&rt, Post::Ask(path)).ok() == Some(0));
    assert!(rt; stage_first(&rt, &mut driver) == Some(1));
    assert!(rt; second.post(&rt, Post::Edit(unit(1, 3))).ok() == Some(0));
    assert!(rt; run_both(&rt, &mut driver, &held) == Some((1, 0)));
    assert!(rt; !held.gave_up.load(Ordering::SeqCst));
    assert!(rt; is_whole_path(first.collect(&rt)));
    assert!(rt; first.collect(&rt).is_none());
    assert!(rt;
        matches!(
            second.collect(&rt),
            Some((0, Reply::Edit(EditReply::Added(1))))
        )
    );
    let _ = driver;
    Ok(())
}

/// Whether it is the reply of this place, a path that stays in the first navcell.
fn is_short_path(collected: Option<(u64, Reply)>, place: u64) -> bool {
    match collected {
        Some((at, reply)) => at == place && stays(Some(&reply)),
        None => false,
    }
}

/// Whether it is the first reply, an obstruction of number 1 that was added.
fn is_added(collected: Option<(u64, Reply)>) -> bool {
    matches!(collected, Some((0, Reply::Edit(EditReply::Added(1)))))
}

/// Whether it is the second post, which removes the obstruction of number 1.
fn is_removal(posted: Option<(u64, Post)>) -> bool {
    matches!(posted, Some((1, Post::Edit(Edit::Remove { id: 1 }))))
}

/// Starts the staged turn and stages what was posted since, then delivers the first of the two turns. Gives how many posts
/// were staged beside it and then.
fn start_and_stage<R: Threads + Wait + Sync>(
    rt: &R,
    driver: &mut Driver,
    caller: &mut Caller,
    post: Post,
    thread: &mut OneThread,
) -> Option<(u64, u64)> {
    let beside = driver.start(rt, thread, &OpenGate).ok()?;
    caller.post(rt, post).ok()?;
    let then = driver.stage(rt).ok()?;
    driver.deliver(rt).ok()?;
    Some((beside, then))
}

/// Runs the staged turn and another with this post, which is staged while the first one runs.
fn run_two<R: Threads + Wait + Sync>(
    rt: &R,
    driver: &mut Driver,
    caller: &mut Caller,
    post: Post,
) -> Option<(u64, u64)> {
    let mut thread = OneThread::new();
    let counts = start_and_stage(rt, driver, caller, post, &mut thread)?;
    run_staged(rt, driver, &mut thread, &OpenGate)?;
    Some(counts)
}

/// Runs the staged turn.
fn run_one<R: Threads + Wait + Sync>(rt: &R, driver: &mut Driver) -> Option<u64> {
    run_staged(rt, driver, &mut OneThread::new(), &OpenGate)
}

#[test]
fn a_turn_that_is_staged_later_stands_on_the_one_that_runs(rt: HostRuntime) -> Result<(), Fail> {
    let alloc: Global = rt.alloc();
    let map = map_of(alloc, 3, 1, 1, &[]).expect(&rt, "the map");
    let (mut driver, callers) = start_service(&rt, alloc, map)?;
    let mut callers = callers;
    let mut caller = callers.take_first().expect(&rt, "the caller");
    assert!(rt; caller.post(&rt, Post::Edit(unit(1, 3))).ok() == Some(0));
    assert!(rt; stage_first(&rt, &mut driver) == Some(1));
    let path = path_asked("default", 1, point(5)).expect(&rt, "the path");
    let counts = run_two(&rt, &mut driver, &mut caller, Post::Ask(path));
    assert!(rt; counts == Some((0, 1)));
    assert!(rt; is_added(caller.collect(&rt)));
    assert!(rt; is_short_path(caller.collect(&rt), 1));
    Ok(())
}

/// The ends of two callers.
fn both_ended(alloc: Global, first: Caller, second: Caller) -> Result<EndedCallers, NoMemory> {
    let mut ended = EndedCallers::new(alloc);
    ended.push(first.end())?;
    ended.push(second.end())?;
    Ok(ended)
}

/// How many turns a closed service has, and how many posts of each of two callers the first of them has.
fn turns_of(closed: &Closed) -> Option<(usize, usize, usize)> {
    let turn = closed.journal().get(0)?;
    Some((
        closed.journal().len(),
        turn.get(0)?.len(),
        turn.get(1)?.len(),
    ))
}

/// Whether what is left in the lanes of the first caller is no post and its second reply, and in those of the second its
/// second post and the reply to the first.
fn has_left<R: Wait>(rt: &R, closed: Closed) -> Option<bool> {
    let mut callers = closed.into_callers();
    let mut first = callers.take_first()?;
    let mut second = callers.take_first()?;
    let first_has = first.posts_left.take(rt).is_none()
        && is_short_path(first.replies_left.take(rt), 1)
        && first.replies_left.take(rt).is_none();
    let second_has = is_removal(second.posts_left.take(rt))
        && second.posts_left.take(rt).is_none()
        && is_added(second.replies_left.take(rt))
        && second.replies_left.take(rt).is_none();
    Some(first_has && second_has && callers.is_empty())
}

/// Two callers post three times, and once more behind the turn. One collects its first reply, and both end.
#[test]
fn a_closed_service_keeps_what_was_not_taken(rt: HostRuntime) -> Result<(), Fail> {
    let alloc: Global = rt.alloc();
    let map = map_of(alloc, 3, 1, 2, &[]).expect(&rt, "the map");
    let (mut driver, callers) = start_service(&rt, alloc, map)?;
    let mut callers = callers;
    let mut first = callers.take_first().expect(&rt, "the first caller");
    let mut second = callers.take_first().expect(&rt, "the second caller");
    for place in 0..2 {
        let path = path_asked("default", 1, point(5)).expect(&rt, "the path");
        assert!(rt; first.post(&rt, Post::Ask(path)).ok() == Some(place));
    }
    assert!(rt; second.post(&rt, Post::Edit(unit(1, 3))).ok() == Some(0));
    assert!(rt; stage_first(&rt, &mut driver) == Some(3));
    assert!(rt; run_one(&rt, &mut driver) == Some(0));
    assert!(rt; is_short_path(first.collect(&rt), 0));
    assert!(rt; second.post(&rt, Post::Edit(Edit::Remove { id: 1 })).ok() == Some(1));
    let ended = both_ended(alloc, first, second)?;
    let Ok(closed) = driver.close(&rt, ended) else {
        panic!(rt; "memory");
    };
    assert!(rt; turns_of(&closed) == Some((1, 2, 1)));
    assert!(rt; closed.replies().len() == 1 && closed.map().callers() == 2);
    assert!(rt; has_left(&rt, closed) == Some(true));
    Ok(())
}
