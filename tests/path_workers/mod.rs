//! Turns on a map of one row, solved by several workers.

use crate::fixtures::turns::{path_asked, point, row_version};
use grid_versions::{Refusal, Version};
use io_edges::{Gate, OpenGate};
use nav_types::NoMemory;
use path_workers::{PoolCache, Workers};
use posts::push_some;
use std::alloc::Global;
use std::sync::atomic::{AtomicBool, AtomicU64, Ordering};
use std::test::*;
use std::thread;
use std::thread::Threads;
use turn_core::{Answer, Answers, Jobs, Note, Report};

/// The column in which a path ends with its cost, or why it is refused.
type Told = Result<(u16, u64), Refusal>;

/// A job on a row of five navcells, with its answer: a path of a class by its name, along the row from one point to
/// another, in halves.
type Row = (&'static str, i16, i16, Told);

/// Jobs of which each has another answer.
const SEVEN: [Row; 7] = [
    ("default", 1, 9, Ok((4, 262_144))),
    ("other", 1, 9, Err(Refusal::UnknownClass)),
    ("default", 9, 1, Ok((0, 262_144))),
    ("default", 11, 1, Err(Refusal::StartOutside)),
    ("default", 1, 3, Ok((1, 65_536))),
    ("default", 1, -1, Err(Refusal::GoalOutside)),
    ("default", 5, 5, Ok((2, 0))),
];

/// The first of these jobs.
const FIRST: Row = ("default", 1, 9, Ok((4, 262_144)));

/// The jobs of these rows.
fn jobs_of(alloc: Global, rows: &[Row]) -> Option<Jobs> {
    let mut jobs = Jobs::new(alloc);
    for (name, from, to, _) in rows {
        let path = path_asked(name, *from, point(*to))?;
        push_some(&mut jobs, Some(path)).ok()?;
    }
    Some(jobs)
}

/// Whether this is the answer.
fn is_told(answer: &Answer, expected: Told) -> bool {
    match answer {
        Answer::Path(path) => expected == Ok((path.end.i, path.cost.0)),
        Answer::Refused(refusal) => expected == Err(*refusal),
        _ => false,
    }
}

/// Whether these are the answers to the jobs of these rows.
fn are_told(answers: &Answers, rows: &[Row]) -> bool {
    for (answer, row) in answers.as_slice().iter().zip(rows) {
        if !is_told(answer, row.3) {
            return false;
        }
    }
    answers.len() == rows.len()
}

/// Whether so many workers solve the seven jobs.
fn solve_seven<R: Threads + Sync>(
    rt: &R,
    alloc: Global,
    workers: u8,
    version: &Version,
    jobs: &Jobs,
) -> bool {
    if workers < 1 || workers > 64 || jobs.len() > 7 {
        return false;
    }
    let mut pool_cache = PoolCache::new(alloc);
    let workers = Workers::new(workers, &OpenGate);
    match workers.run_noted(rt, alloc, version, jobs, Report::Answers, &mut pool_cache) {
        Ok(noted) => are_told(&noted.answers, &SEVEN),
        Err(NoMemory) => false,
    }
}

#[test]
fn each_job_has_its_answer_by_any_number_of_workers(rt: HostRuntime) {
    let alloc = rt.alloc();
    let version = row_version(alloc, 5, &[]).expect(&rt, "the version");
    let jobs = jobs_of(alloc, &SEVEN).expect(&rt, "the jobs");
    for workers in [1u8, 2, 7, 64] {
        assert!(rt;
            solve_seven(&rt, alloc, workers, &version, &jobs),
            "{workers} workers"
        );
    }
}

/// The opened number that a note tells, if it tells one.
fn opened_in(note: &Note) -> Option<u64> {
    match note {
        Note::Opened(opened) => Some(*opened),
        _ => None,
    }
}

/// On an open row the start and the goal are the only jump states, and a refused job opens none.
#[test]
fn each_job_has_its_note(rt: HostRuntime) {
    let alloc = rt.alloc();
    let version = row_version(alloc, 5, &[]).expect(&rt, "the version");
    let jobs = jobs_of(alloc, &SEVEN).expect(&rt, "the jobs");
    assert!(rt; jobs.len() <= 7);
    let report = Report::OpenedNumbers;
    let mut pool_cache = PoolCache::new(alloc);
    let workers = Workers::new(2, &OpenGate);
    let Ok(noted) = workers.run_noted(&rt, alloc, &version, &jobs, report, &mut pool_cache) else {
        panic!(rt; "the answers")
    };
    assert!(rt; are_told(&noted.answers, &SEVEN));
    let numbers = [Some(2), None, Some(2), None, Some(2), None, Some(1)];
    assert!(rt; noted.notes.len() == numbers.len());
    for (note, number) in noted.notes.as_slice().iter().zip(numbers) {
        assert!(rt; opened_in(note) == number);
    }
}

/// The workers of a later turn search in the rooms of an earlier one, and answer the same.
#[test]
fn rooms_are_used_again(rt: HostRuntime) {
    let alloc = rt.alloc();
    let version = row_version(alloc, 5, &[]).expect(&rt, "the version");
    let jobs = jobs_of(alloc, &SEVEN).expect(&rt, "the jobs");
    assert!(rt; jobs.len() <= 7);
    let mut pool_cache = PoolCache::new(alloc);
    for count in [2, 3, 1] {
        let workers = Workers::new(count, &OpenGate);
        let report = Report::Answers;
        let Ok(noted) = workers.run_noted(&rt, alloc, &version, &jobs, report, &mut pool_cache)
        else {
            panic!(rt; "the answers")
        };
        assert!(rt; are_told(&noted.answers, &SEVEN));
    }
}

/// Counts passes, and holds the first one until three others have come.
#[derive(Drop)]
struct HoldingGate {
    passes: AtomicU64,
    numbers: AtomicU64,
    gave_up: AtomicBool,
}

impl Gate for HoldingGate {
    fn pass(&self, job: u64) {
        // A byte of its own for each of the four jobs.
        self.numbers
            .fetch_add(1u64 << (8 * job.min(7)), Ordering::SeqCst);
        if self.passes.fetch_add(1, Ordering::SeqCst) > 0 {
            return;
        }
        for _ in 0..2_000_000_000u64 {
            if self.passes.load(Ordering::SeqCst) > 3 {
                return;
            }
            thread::yield_now();
        }
        self.gave_up.store(true, Ordering::SeqCst);
    }

    fn staged(&self, _posts: u64) {}

    fn begun(&self, _caller: u8) {}
}

/// Whether two workers at a gate solve four equal jobs.
fn two_solve_four<R: Threads + Sync>(rt: &R, alloc: Global, gate: &HoldingGate) -> bool {
    let rows = [FIRST, FIRST, FIRST, FIRST];
    let Some(version) = row_version(alloc, 5, &[]) else {
        return false;
    };
    let Some(jobs) = jobs_of(alloc, &rows) else {
        return false;
    };
    if jobs.len() > 4 {
        return false;
    }
    let workers = Workers::new(2, gate);
    let report = Report::Answers;
    match workers.run_noted(
        rt,
        alloc,
        &version,
        &jobs,
        report,
        &mut PoolCache::new(alloc),
    ) {
        Ok(noted) => are_told(&noted.answers, &rows),
        Err(NoMemory) => false,
    }
}

#[test]
fn two_workers_run_beside_each_other(rt: HostRuntime) {
    let gate = HoldingGate {
        passes: AtomicU64::new(0),
        numbers: AtomicU64::new(0),
        gave_up: AtomicBool::new(false),
    };
    assert!(rt; two_solve_four(&rt, rt.alloc(), &gate));
    assert!(rt; gate.numbers.load(Ordering::SeqCst) == 0x0101_0101);
    assert!(rt; !gate.gave_up.load(Ordering::SeqCst));
}
