//! Callers that are served: their works, the driver and the workers beside each other.

use super::{run_over, script};
use io_edges::{Gate, OpenGate};
use nav_types::{Bytes, NoMemory};
use pathserve::Status;
use std::alloc::Global;
use std::sync::Wait;
use std::sync::atomic::{AtomicBool, AtomicU64, Ordering};
use std::test::*;
use std::thread::Threads;
use std::{str, thread};

/// A turn in which each of three callers asks for two paths.
const THREE_CALLERS: &str =
    "{\"version\":1,\"size\":[3,3],\"callers\":3,\"classes\":[{\"name\":\"default\",\"clearance\":\"0\"}]}\n\
{\"caller\":0,\"path\":\"default\",\"from\":[\"0.5\",\"0.5\"],\"goal\":{\"point\":[\"2.5\",\"2.5\"]}}\n\
{\"caller\":0,\"path\":\"default\",\"from\":[\"1.5\",\"0.5\"],\"goal\":{\"point\":[\"2.5\",\"2.5\"]}}\n\
{\"caller\":1,\"path\":\"default\",\"from\":[\"0.5\",\"0.5\"],\"goal\":{\"point\":[\"2.5\",\"2.5\"]}}\n\
{\"caller\":1,\"path\":\"default\",\"from\":[\"0.5\",\"1.5\"],\"goal\":{\"point\":[\"2.5\",\"2.5\"]}}\n\
{\"caller\":2,\"path\":\"default\",\"from\":[\"0.5\",\"0.5\"],\"goal\":{\"point\":[\"2.5\",\"2.5\"]}}\n\
{\"caller\":2,\"path\":\"default\",\"from\":[\"1.5\",\"1.5\"],\"goal\":{\"point\":[\"2.5\",\"2.5\"]}}\n\
{\"end\":1}\n";

/// A turn of two posts of one caller, and what is written of it: as they come into one turn, or into a turn each.
pub(crate) const TWO_POSTS: (&str, [&str; 2]) = (
    "{\"version\":1,\"size\":[3,3],\"callers\":2,\"classes\":[{\"name\":\"default\",\"clearance\":\"0\"}]}\n\
{\"caller\":1,\"path\":\"default\",\"from\":[\"0.5\",\"0.5\"],\"goal\":{\"point\":[\"2.5\",\"1.5\"]}}\n\
{\"caller\":1,\"path\":\"default\",\"from\":[\"2.5\",\"2.5\"],\"goal\":{\"point\":[\"0.5\",\"0.5\"]}}\n\
{\"end\":1}\n",
    [
        "{\"version\":1,\"size\":[3,3],\"callers\":2,\"classes\":[{\"name\":\"default\",\"clearance\":\"0\"}]}\n\
{\"caller\":1,\"path\":\"default\",\"from\":[\"0.5\",\"0.5\"],\"goal\":{\"point\":[\"2.5\",\"1.5\"]}}\n\
{\"caller\":1,\"path\":\"default\",\"from\":[\"2.5\",\"2.5\"],\"goal\":{\"point\":[\"0.5\",\"0.5\"]}}\n\
{\"end\":1}\n\
turn 1 regions 1 edges 0 areas 1 relabelled 0\n\
1 0 path 0 0 2 1 goal 158218 2 1.5,1.5 2.5,1.5\n\
1 1 path 2 2 0 0 goal 185364 1 0.5,0.5\n",
        "{\"version\":1,\"size\":[3,3],\"callers\":2,\"classes\":[{\"name\":\"default\",\"clearance\":\"0\"}]}\n\
{\"caller\":1,\"path\":\"default\",\"from\":[\"0.5\",\"0.5\"],\"goal\":{\"point\":[\"2.5\",\"1.5\"]}}\n\
{\"end\":1}\n\
{\"caller\":1,\"path\":\"default\",\"from\":[\"2.5\",\"2.5\"],\"goal\":{\"point\":[\"0.5\",\"0.5\"]}}\n\
{\"end\":2}\n\
turn 1 regions 1 edges 0 areas 1 relabelled 0\n\
1 0 path 0 0 2 1 goal 158218 2 1.5,1.5 2.5,1.5\n\
turn 2 regions 1 edges 0 areas 1 relabelled 0\n\
1 0 path 2 2 0 0 goal 185364 1 0.5,0.5\n",
    ],
);

/// A map with terrain.
const TERRAIN: &str =
    "{\"version\":3,\"size\":[12,8],\"callers\":3,\"classes\":[{\"name\":\"a\",\"clearance\":\"0\"},{\"name\":\"b\",\"clearance\":\"1\"}]}\n\
{\"base\":[[5,0,5,5,3],[0,6,2,6,1]]}\n";

/// How the lines of a caller begin, and these lines in their order: one builds and asks, one moves and removes what is its
/// own, and one only asks.
const POSTED: [(&str, &[&str]); 3] = [
    (
        "{\"caller\":0,",
        &[
            "{\"caller\":0,\"add\":1,\"unit\":[\"8.5\",\"3.5\",\"1\"],\"mask\":3}",
            "{\"caller\":0,\"path\":\"a\",\"from\":[\"0.5\",\"0.5\"],\"goal\":{\"point\":[\"11.5\",\"0.5\"]}}",
            "{\"caller\":0,\"remove\":7}",
            "{\"caller\":0,\"path\":\"b\",\"from\":[\"0.5\",\"0.5\"],\"goal\":{\"obstruction\":[1,\"1\"]}}",
        ],
    ),
    (
        "{\"caller\":1,",
        &[
            "{\"caller\":1,\"add\":2,\"square\":[\"2\",\"3\",\"0.625\",\"0.78125\",\"1\",\"0.5\"],\"mask\":1}",
            "{\"caller\":1,\"move\":2,\"to\":[\"9\",\"6\"]}",
            "{\"caller\":1,\"region\":\"a\",\"at\":[\"9\",\"6\"]}",
            "{\"caller\":1,\"remove\":2}",
            "{\"caller\":1,\"region\":\"a\",\"at\":[\"9\",\"6\"]}",
        ],
    ),
    (
        "{\"caller\":2,",
        &[
            "{\"caller\":2,\"path\":\"a\",\"from\":[\"11.5\",\"7.5\"],\"goal\":{\"circle\":[\"0.5\",\"0.5\",\"2\"]}}",
            "{\"caller\":2,\"path\":\"b\",\"from\":[\"11.5\",\"7.5\"],\"goal\":{\"point\":[\"0.5\",\"7.5\"]}}",
        ],
    ),
];

/// How many times a gate looks before it gives up.
const LOOKS: u64 = 2_000_000_000;

/// Holds the n-th pass of job 0 until it was told n times that a turn is staged.
#[derive(Drop)]
struct StagingGate {
    passes: AtomicU64,
    firsts: AtomicU64,
    staged: AtomicU64,
    gave_up: AtomicBool,
}

impl Gate for StagingGate {
    fn pass(&self, job: u64) {
        self.passes.fetch_add(1, Ordering::SeqCst);
        if job > 0 {
            return;
        }
        let before = self.firsts.fetch_add(1, Ordering::SeqCst);
        for _ in 0..LOOKS {
            if self.staged.load(Ordering::SeqCst) > before {
                return;
            }
            thread::yield_now();
        }
        self.gave_up.store(true, Ordering::SeqCst);
    }

    fn staged(&self, _posts: u64) {
        self.staged.fetch_add(1, Ordering::SeqCst);
    }

    fn begun(&self, _caller: u8) {}
}

/// Holds the work of each caller until three have begun.
#[derive(Drop)]
struct BeginningGate {
    begun: AtomicU64,
    gave_up: AtomicBool,
}

impl Gate for BeginningGate {
    fn pass(&self, _job: u64) {}

    fn staged(&self, _posts: u64) {}

    fn begun(&self, _caller: u8) {
        self.begun.fetch_add(1, Ordering::SeqCst);
        for _ in 0..LOOKS {
            if self.begun.load(Ordering::SeqCst) > 2 {
                return;
            }
            thread::yield_now();
        }
        self.gave_up.store(true, Ordering::SeqCst);
    }
}

#[test]
fn the_journal_and_its_answers_are_written(rt: HostRuntime) {
    let (script, [one, two]) = TWO_POSTS;
    let bytes = script.as_bytes();
    let ran = run_over(&rt, rt.alloc(), &["serve"], bytes, &[], &[], &OpenGate).expect(
        &rt, "memory",
    );
    let kept = ran.sink.kept();
    assert!(rt; ran.status == Status::Done);
    assert!(rt; kept == one.as_bytes() || kept == two.as_bytes());
}

/// The script of what the three callers post.
fn posted_script(alloc: Global) -> Result<Bytes, NoMemory> {
    let mut given = script(alloc, &[TERRAIN])?;
    for (_, lines) in POSTED {
        for line in lines {
            given.extend(line.as_bytes())?;
            given.push(b'\n')?;
        }
    }
    given.extend(b"{\"end\":1}\n")?;
    Ok(given)
}

/// How long the lines are that a text begins with and that are lines of a script.
fn journal_in(text: &str) -> usize {
    let mut length: usize = 0;
    for line in text.lines() {
        if !line.starts_with("{") {
            return length;
        }
        length = length.saturating_add(line.len()).saturating_add(1);
    }
    length
}

/// Whether the lines of a script that begin so are these, in their order.
fn are_lines_of(journal: &str, beginning: &str, lines: &[&str]) -> bool {
    let mut left = lines;
    for line in journal.lines() {
        if line.starts_with(beginning) {
            let Some((first, others)) = left.split_first() else {
                return false;
            };
            if line != *first {
                return false;
            }
            left = others;
        }
    }
    left.is_empty()
}

/// Whether a text is the script of a session of the three callers, each of whose posts stand in it once and in their order,
/// and then what a replay of that script answers.
fn is_session<R: Threads + Wait + Sync>(
    rt: &R,
    alloc: Global,
    text: &[u8],
) -> Result<bool, NoMemory> {
    let Ok(told) = str::from_utf8(text) else {
        return Ok(false);
    };
    let (journal, answers) = told.split_at(journal_in(told));
    for (beginning, lines) in POSTED {
        if !are_lines_of(journal, beginning, lines) {
            return Ok(false);
        }
    }
    let again = run_over(
        rt,
        alloc,
        &["replay"],
        journal.as_bytes(),
        &[],
        &[],
        &OpenGate,
    )?;
    Ok(
        journal.starts_with(TERRAIN)
            && again.status == Status::Done
            && again.sink.kept() == answers.as_bytes(),
    )
}

#[test]
fn each_callers_posts_are_answered_in_their_order(rt: HostRuntime) {
    let given = posted_script(rt.alloc()).expect(&rt, "memory");
    for workers in ["1", "4"] {
        let words = ["serve", "--workers", workers];
        let bytes = given.as_slice();
        let ran = run_over(&rt, rt.alloc(), &words, bytes, &[], &[], &OpenGate).expect(
            &rt, "memory",
        );
        assert!(rt; ran.status == Status::Done);
        assert!(rt;
            is_session(&rt, rt.alloc(), ran.sink.kept()) == Ok(true),
            "{workers} workers"
        );
    }
}

#[test]
fn a_turn_is_staged_beside_one_that_runs(rt: HostRuntime) {
    let gate = StagingGate {
        passes: AtomicU64::new(0),
        firsts: AtomicU64::new(0),
        staged: AtomicU64::new(0),
        gave_up: AtomicBool::new(false),
    };
    let bytes = THREE_CALLERS.as_bytes();
    let ran = run_over(&rt, rt.alloc(), &["serve"], bytes, &[], &[], &gate).expect(&rt, "memory");
    assert!(rt; ran.status == Status::Done);
    assert!(rt; gate.passes.load(Ordering::SeqCst) == 6);
    assert!(rt; !gate.gave_up.load(Ordering::SeqCst));
}

#[test]
fn callers_post_beside_each_other(rt: HostRuntime) {
    let gate = BeginningGate {
        begun: AtomicU64::new(0),
        gave_up: AtomicBool::new(false),
    };
    let bytes = THREE_CALLERS.as_bytes();
    let ran = run_over(&rt, rt.alloc(), &["serve"], bytes, &[], &[], &gate).expect(&rt, "memory");
    assert!(rt; ran.status == Status::Done);
    assert!(rt; gate.begun.load(Ordering::SeqCst) == 3);
    assert!(rt; !gate.gave_up.load(Ordering::SeqCst));
}
