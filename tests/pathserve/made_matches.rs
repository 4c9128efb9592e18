//! Matches made out of numbers, and their summaries.

use super::{run_over, runs_to};
use io_edges::OpenGate;
use nav_types::{Bytes, NoMemory};
use pathserve::{Made, Status, make_script};
use posts::{Edit, Post, Posts};
use script_text::{have_lines, write_journal, write_map};
use std::alloc::Global;
use std::str;
use std::sync::Wait;
use std::test::*;
use std::thread::Threads;

/// Whether each of the posts is an add, and there are 25.
fn are_25_adds(posts: &Posts) -> bool {
    posts.len() == 25
        && posts
            .as_slice()
            .iter()
            .all(|post| matches!(post, Post::Edit(Edit::Add { .. })))
}

/// Whether the match has 50 turns, 24 base rectangles, and a first turn in which each of 16 callers adds 25 times.
fn is_of_size(made: &Made) -> bool {
    let Some(first) = made.journal.get(0) else {
        return false;
    };
    made.journal.len() == 50
        && made.map.base().len() == 24
        && first.len() == 16
        && first.as_slice().iter().all(are_25_adds)
}

/// The canonical script of a match.
fn script_of(alloc: Global, made: &Made) -> Result<Bytes, NoMemory> {
    let mut script = write_map(alloc, &made.map)?;
    let mut turn: u64 = 0;
    for posts in made.journal.as_slice() {
        if !have_lines(&made.map, posts) {
            return Err(NoMemory);
        }
        turn = turn.wrapping_add(1);
        script.append(&mut write_journal(alloc, &made.map, turn, posts)?)?;
    }
    Ok(script)
}

/// Whether the replay of the script of a match tells this of its last turn.
fn replay_tells<R: Threads + Wait + Sync>(
    rt: &R,
    alloc: Global,
    seed: u64,
    last: &str,
) -> Result<bool, NoMemory> {
    let script = script_of(alloc, &make_script(alloc, seed)?)?;
    let ran = run_over(
        rt,
        alloc,
        &["replay"],
        script.as_slice(),
        &[],
        &[],
        &OpenGate,
    )?;
    let told = match str::from_utf8(ran.sink.kept()) {
        Ok(text) => text.contains(last),
        Err(_) => false,
    };
    Ok(ran.status == Status::Done && told)
}

#[test]
fn numbers_make_matches(rt: HostRuntime) {
    let made = make_script(rt.alloc(), 0).expect(&rt, "memory");
    assert!(rt; matches!(made.map.base().get(0), Some((rect, _)) if rect.i0 == 447));
    let made = make_script(rt.alloc(), 7).expect(&rt, "memory");
    assert!(rt; is_of_size(&made));
}

/// What is told of the match that 7 makes.
pub(crate) const SUMMARY: &str =
    "summary turns 50 posts 1573 added 436 removed 163 refused 190 goal 743 near 41 nowhere 0 cost 1595806862 corners 2020\n\
last regions 393 edges 570 areas 43\n";

#[test]
fn a_summary_ends_as_the_replay_of_its_match(rt: HostRuntime) {
    for workers in ["1", "64", "1"] {
        let words = ["make", "7", "--workers", workers];
        assert!(rt;
            runs_to(
                &rt,
                rt.alloc(),
                &words,
                b"",
                &[],
                &[],
                Status::Done,
                SUMMARY
            ),
            "{workers} workers"
        );
    }
    let last = "\nturn 50 regions 393 edges 570 areas 43 relabelled ";
    assert!(rt; replay_tells(&rt, rt.alloc(), 7, last) == Ok(true));
}
