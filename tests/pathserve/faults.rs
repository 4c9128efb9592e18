//! Reads and writes that fail, each in turn, by scripts that are given and answers that are taken in pieces.

use super::made_matches::SUMMARY;
use super::serving::TWO_POSTS;
use super::{script, words_of};
use io_edges::{MemorySink, MemorySource, OpenGate};
use nav_types::NoMemory;
use pathserve::{Status, run};
use std::alloc::Global;
use std::sync::Wait;
use std::test::*;
use std::thread::Threads;

/// The turns of a script on a map of two chunks: a region is cut off from the other in the second.
const TURNS: [&str; 2] = [
    "{\"version\":1,\"size\":[192,1],\"callers\":1,\"classes\":[{\"name\":\"default\",\"clearance\":\"1\"}]}\n\
{\"caller\":0,\"path\":\"default\",\"from\":[\"0.5\",\"0.5\"],\"goal\":{\"point\":[\"191.5\",\"0.5\"]}}\n\
{\"end\":1}\n",
    "{\"caller\":0,\"add\":9,\"unit\":[\"95\",\"0.5\",\"0.5\"]}\n\
{\"caller\":0,\"path\":\"default\",\"from\":[\"0.5\",\"0.5\"],\"goal\":{\"point\":[\"191.5\",\"0.5\"]}}\n\
{\"caller\":0,\"region\":\"default\",\"at\":[\"100.5\",\"0.5\"]}\n\
{\"end\":2}\n",
];

/// What each word answers to these turns; `serve` answers nothing where its script is not read to the end.
const ANSWERS: [(&str, [&str; 2]); 5] = [
    (
        "replay",
        [
            "turn 1 regions 2 edges 1 areas 1 relabelled 0\n\
0 0 path 0 0 191 0 goal 12517376 1 191.5,0.5\n",
            "turn 2 regions 2 edges 0 areas 2 relabelled 2\n\
0 0 added 9\n\
0 1 path 0 0 92 0 near 6029312 1 92.5,0.5\n\
0 2 region 1 0 1 2\n",
        ],
    ),
    (
        "profile",
        [
            "turn 1 regions 2 edges 1 areas 1 relabelled 0\n\
0 0 path 0 0 191 0 goal 12517376 1 191.5,0.5\n\
0 0 opened 2\n",
            "turn 2 regions 2 edges 0 areas 2 relabelled 2\n\
0 0 added 9\n\
0 1 path 0 0 92 0 near 6029312 1 92.5,0.5\n\
0 1 opened 2\n\
0 2 region 1 0 1 2\n",
        ],
    ),
    (
        "flow",
        [
            "turn 1 regions 2 edges 1 areas 1 relabelled 0\n\
0 0 path 0 0 191 0 goal 12517376 1 191.5,0.5\n\
0 0 flow E 192 12517376 1201668096\n",
            "turn 2 regions 2 edges 0 areas 2 relabelled 2\n\
0 0 added 9\n\
0 1 path 0 0 92 0 near 6029312 1 92.5,0.5\n\
0 1 flow E 93 6029312 280363008\n\
0 2 region 1 0 1 2\n",
        ],
    ),
    (
        "smooth",
        [
            "turn 1 regions 2 edges 1 areas 1 relabelled 0\n\
0 0 path 0 0 191 0 goal 12517376 1 191.5,0.5\n\
0 0 smooth 1 191.5,0.5\n",
            "turn 2 regions 2 edges 0 areas 2 relabelled 2\n\
0 0 added 9\n\
0 1 path 0 0 92 0 near 6029312 1 92.5,0.5\n\
0 1 smooth 1 92.5,0.5\n\
0 2 region 1 0 1 2\n",
        ],
    ),
    ("serve", ["", ""]),
];

/// Runs the words from the source to the sink.
fn run_between<R: Threads + Wait + Sync>(
    rt: &R,
    alloc: Global,
    words: &[&str],
    source: &mut MemorySource,
    sink: &mut MemorySink,
) -> Result<Status, NoMemory> {
    let words = words_of(alloc, words)?;
    let mut why = None;
    Ok(run(rt, alloc, &words, source, sink, &OpenGate, &mut why))
}

/// The answers to the turns whose end lines lie in the first bytes, so many, of the script of two turns.
fn answers_within(taken: usize, answers: [&'static str; 2]) -> [&'static str; 2] {
    let [first, second] = TURNS;
    let [first_answers, second_answers] = answers;
    if taken < first.len() {
        ["", ""]
    } else if taken - first.len() < second.len() {
        [first_answers, ""]
    } else {
        [first_answers, second_answers]
    }
}

/// Whether a run of the word over the script of two turns, given in such pieces, ends at each failing read in turn, that
/// which would tell the end of the script among them, and goes past none: with the answers to the turns that it had
/// read, or under `serve` with none.
fn ends_at_each_read<R: Threads + Wait + Sync>(
    rt: &R,
    alloc: Global,
    word: &str,
    answers: [&'static str; 2],
    piece: usize,
) -> Result<bool, NoMemory> {
    let given = script(alloc, &TURNS)?;
    let mut taken: usize = 0;
    let mut read: u64 = 1;
    let mut is_read = false;
    for _ in 0..given.len().saturating_add(2) {
        let mut source = MemorySource::new(alloc, given.as_slice(), piece.max(1), &[read])?;
        let mut sink = MemorySink::new(alloc, 4096, &[])?;
        let status = run_between(rt, alloc, &[word], &mut source, &mut sink)?;
        if is_read {
            return Ok(status == Status::Done);
        }
        let wanted = script(alloc, &answers_within(taken, answers))?;
        if status != Status::ReadFault || sink.kept() != wanted.as_slice() {
            return Ok(false);
        }
        is_read = taken >= given.len();
        taken = taken.saturating_add(piece);
        read = read.saturating_add(1);
    }
    Ok(false)
}

#[test]
fn each_failing_read_ends_the_run(rt: HostRuntime) {
    for (word, answers) in ANSWERS {
        for piece in [1, 7, 4096] {
            assert!(rt;
                ends_at_each_read(&rt, rt.alloc(), word, answers, piece) == Ok(true),
                "{word} {piece}"
            );
        }
    }
}

/// Whether a run of the words over the script, whose text is taken in such pieces, ends at each failing write in turn with a
/// beginning of the text, or of the other text where either may come, and with one of them whole where no write is left
/// to fail. Where they are one, what is written grows by a piece at most.
fn ends_at_each_write<R: Threads + Wait + Sync>(
    rt: &R,
    alloc: Global,
    words: &[&str],
    given: &[u8],
    [text, other]: [&[u8]; 2],
    piece: usize,
) -> Result<bool, NoMemory> {
    let mut before: usize = 0;
    for write in 1..=(text.len().max(other.len()) as u64).saturating_add(1) {
        let mut source = MemorySource::new(alloc, given, 4096, &[])?;
        let mut sink = MemorySink::new(alloc, piece, &[write])?;
        let status = run_between(rt, alloc, words, &mut source, &mut sink)?;
        let kept = sink.kept();
        if status == Status::Done {
            return Ok(write > 1 && (kept == text || kept == other));
        }
        let grows = kept.len() >= before && kept.len() <= before.saturating_add(piece);
        let is_begun = text.starts_with(kept) || other.starts_with(kept);
        if status != Status::WriteFault || !is_begun || !grows && text == other {
            return Ok(false);
        }
        before = kept.len();
    }
    Ok(false)
}

#[test]
fn each_failing_write_ends_a_replay(rt: HostRuntime) {
    let alloc = rt.alloc();
    let two = script(alloc, &TURNS).expect(&rt, "memory");
    for (word, [first, second]) in ANSWERS {
        if word == "serve" {
            continue;
        }
        let text = script(alloc, &[first, second]).expect(&rt, "memory");
        let texts = [text.as_slice(), text.as_slice()];
        for piece in [1, 5, 4096] {
            assert!(rt;
                ends_at_each_write(&rt, alloc, &[word], two.as_slice(), texts, piece) == Ok(true),
                "{word} {piece}"
            );
        }
    }
}

#[test]
fn each_failing_write_ends_a_session(rt: HostRuntime) {
    let alloc = rt.alloc();
    let (given, [one, two]) = TWO_POSTS;
    let texts = [one.as_bytes(), two.as_bytes()];
    for piece in [1, 5, 4096] {
        assert!(rt;
            ends_at_each_write(&rt, alloc, &["serve"], given.as_bytes(), texts, piece) == Ok(true),
            "{piece}"
        );
    }
}

#[test]
fn each_failing_write_ends_a_made_match(rt: HostRuntime) {
    let alloc = rt.alloc();
    let texts = [SUMMARY.as_bytes(), SUMMARY.as_bytes()];
    for piece in [100, 4096] {
        assert!(rt;
            ends_at_each_write(&rt, alloc, &["make", "7"], b"", texts, piece) == Ok(true),
            "{piece}"
        );
    }
}

/// What a run of the word over the script of two turns writes to a sink that takes such pieces and fails at this write.
fn written_before<R: Threads + Wait + Sync>(
    rt: &R,
    alloc: Global,
    word: &str,
    piece: usize,
    write: u64,
) -> Result<(Status, MemorySink), NoMemory> {
    let given = script(alloc, &TURNS)?;
    let mut source = MemorySource::new(alloc, given.as_slice(), 4096, &[])?;
    let mut sink = MemorySink::new(alloc, piece, &[write])?;
    let status = run_between(rt, alloc, &[word], &mut source, &mut sink)?;
    Ok((status, sink))
}

#[test]
fn a_sink_takes_pieces_or_nothing(rt: HostRuntime) {
    for (word, piece, write, kept) in [
        ("replay", 5, 4, "turn 1 regions "),
        ("profile", 5, 4, "turn 1 regions "),
        ("flow", 5, 4, "turn 1 regions "),
        ("smooth", 5, 4, "turn 1 regions "),
        ("serve", 5, 4, "{\"version\":1,\"s"),
        ("replay", 0, 0, ""),
        ("profile", 0, 0, ""),
        ("flow", 0, 0, ""),
        ("smooth", 0, 0, ""),
        ("serve", 0, 0, ""),
    ] {
        let (status, sink) = written_before(&rt, rt.alloc(), word, piece, write).expect(
            &rt, "memory",
        );
        assert!(rt; status == Status::WriteFault, "{word} {piece}");
        assert!(rt; sink.kept() == kept.as_bytes(), "{word} {piece}");
    }
}
