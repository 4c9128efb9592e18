//! The top call over memory: scripts with their answers, faults and limits.

use io_edges::{Gate, MemorySink, MemorySource, OpenGate};
use itoa::Buffer;
use nav_types::{Bytes, NoMemory, Words};
use pathserve::{BadLine, Reason, Status, first_wrong, run};
use script_text::{Cause, Key, Wanted};
use std::alloc::Global;
use std::sync::Wait;
use std::test::*;
use std::thread::Threads;

mod cuts;
mod faults;
mod limits;
mod made_matches;
mod saved_matches;
mod scripts;
mod serving;
mod side_by_side;
mod turn_by_turn;

use scripts::{COVER, COVER_ANSWERS, SCRIPTS};
use side_by_side::{FOUR_ANSWERS, FOUR_PATHS};

/// A map of 3 by 3 cells, without its newline.
const MAP_LINE: &str =
    "{\"version\":1,\"size\":[3,3],\"callers\":1,\"classes\":[{\"name\":\"default\",\"clearance\":\"0\"}]}";

/// A map of 256 by 256 cells.
const LARGE_MAP: &str =
    "{\"version\":1,\"size\":[256,256],\"callers\":1,\"classes\":[{\"name\":\"default\",\"clearance\":\"0\"}]}\n";

/// How a run ended, why its script stopped, and what it wrote.
#[derive(Drop)]
struct Ran {
    status: Status,
    why: Option<Reason>,
    sink: MemorySink,
}

/// One list of words.
fn words_of(alloc: Global, words: &[&str]) -> Result<Words, NoMemory> {
    let mut list = Words::new(alloc);
    for word in words {
        let mut bytes = Bytes::new(alloc);
        bytes.extend(word.as_bytes())?;
        list.push(bytes)?;
    }
    Ok(list)
}

/// Runs the words over these bytes, at a gate.
fn run_over<R: Threads + Wait + Sync, G: Gate + Sync>(
    rt: &R,
    alloc: Global,
    words: &[&str],
    bytes: &[u8],
    read_fails: &[u64],
    write_fails: &[u64],
    gate: &G,
) -> Result<Ran, NoMemory> {
    let words = words_of(alloc, words)?;
    let mut source = MemorySource::new(alloc, bytes, 4096, read_fails)?;
    let mut sink = MemorySink::new(alloc, 4096, write_fails)?;
    let mut why = None;
    let status = run(rt, alloc, &words, &mut source, &mut sink, gate, &mut why);
    Ok(Ran { status, why, sink })
}

/// The parts of a script, one after another.
fn script(alloc: Global, parts: &[&str]) -> Result<Bytes, NoMemory> {
    let mut bytes = Bytes::new(alloc);
    for part in parts {
        bytes.extend(part.as_bytes())?;
    }
    Ok(bytes)
}

/// Whether a run of the words over these bytes ends with the status, and has written the text and nothing more.
fn runs_to<R: Threads + Wait + Sync>(
    rt: &R,
    alloc: Global,
    words: &[&str],
    bytes: &[u8],
    read_fails: &[u64],
    write_fails: &[u64],
    status: Status,
    text: &str,
) -> bool {
    match run_over(rt, alloc, words, bytes, read_fails, write_fails, &OpenGate) {
        Ok(ran) => ran.status == status && ran.sink.kept() == text.as_bytes(),
        Err(NoMemory) => false,
    }
}

#[test]
fn scripts_are_answered(rt: HostRuntime) {
    for (script, status, answers) in SCRIPTS {
        let bytes = script.as_bytes();
        assert!(rt;
            runs_to(
                &rt,
                rt.alloc(),
                &["replay"],
                bytes,
                &[],
                &[],
                status,
                answers
            ),
            "{script}"
        );
    }
}

/// Whether a replay of a map line and these lines ends at this bad line, for this cause.
fn is_bad_for<R: Threads + Wait + Sync>(rt: &R, alloc: Global, lines: &str, bad: BadLine) -> bool {
    let Ok(text) = script(alloc, &[MAP_LINE, lines]) else {
        return false;
    };
    match run_over(rt, alloc, &["replay"], text.as_slice(), &[], &[], &OpenGate) {
        Ok(ran) => ran.why == Some(Reason::BadLine(bad)),
        Err(NoMemory) => false,
    }
}

#[test]
fn a_bad_line_has_its_cause(rt: HostRuntime) {
    let second_end = BadLine {
        number: 2,
        cause: Some(Cause::WrongValue {
            key: Key::End,
            wanted: Wanted::Turn { number: 1 },
        }),
    };
    let no_end = BadLine {
        number: 3,
        cause: Some(Cause::EndsInsideTurn),
    };
    assert!(rt; is_bad_for(&rt, rt.alloc(), "\n{\"end\":2}\n", second_end));
    assert!(rt; is_bad_for(&rt, rt.alloc(), "\n{\"caller\":0,\"remove\":1}", no_end));
}

/// Words that are not in the grammar, and the number of the first that is wrong.
const OTHER_WORDS: [(&[&str], u64); 17] = [
    (&[], 1),
    (&["make"], 2),
    (&["make", "07"], 2),
    (&["make", "7", "8"], 3),
    (&["make", "7", "--workers", "4", "4"], 5),
    (&["replay", "--workers=4"], 2),
    (&["replay", "--workers"], 3),
    (&["replay", "--workers", ""], 3),
    (&["replay", "--workers", "0"], 3),
    (&["replay", "--workers", "01"], 3),
    (&["replay", "--workers", "+1"], 3),
    (&["replay", "--workers", "65"], 3),
    (&["replay", "--workers", "100"], 3),
    (&["replay", "--workers", "4", "--workers", "4"], 4),
    (&["--workers", "4", "replay"], 1),
    (&["profile", "--workers", "65"], 3),
    (&["profile", "replay"], 2),
];

// None of the reads and writes may fail.
#[test]
fn other_words_read_nothing(rt: HostRuntime) {
    for (words, wrong) in OTHER_WORDS {
        let bytes = COVER.as_bytes();
        assert!(rt; runs_to(&rt, rt.alloc(), words, bytes, &[1], &[1], Status::Usage, ""));
        let list = words_of(rt.alloc(), words).expect(&rt, "memory");
        assert!(rt; first_wrong(&list) == Some(wrong), "{wrong}");
    }
}

#[test]
fn any_number_of_workers_answers_alike(rt: HostRuntime) {
    for workers in ["1", "2", "3", "64"] {
        let words = ["replay", "--workers", workers];
        let bytes = FOUR_PATHS.as_bytes();
        assert!(rt;
            runs_to(
                &rt,
                rt.alloc(),
                &words,
                bytes,
                &[],
                &[],
                Status::Done,
                FOUR_ANSWERS
            ),
            "{workers} workers"
        );
    }
}

/// The map of 3 by 3 navcells of the scripts below.
const MAP: &str =
    "{\"version\":1,\"size\":[3,3],\"callers\":1,\"classes\":[{\"name\":\"default\",\"clearance\":\"0\"}]}\n";

/// Lines behind the map that ask for a path: straight to the goal, round a blocked cell, to the start's own cell, and by a
/// corner that can be seen past.
const STRAIGHT: &str =
    "{\"caller\":0,\"path\":\"default\",\"from\":[\"0.5\",\"0.5\"],\"goal\":{\"point\":[\"2.5\",\"2.5\"]}}\n\
{\"end\":1}\n";

const ROUND: &str = "{\"base\":[[1,1,1,1,1]]}\n\
{\"caller\":0,\"path\":\"default\",\"from\":[\"0.5\",\"0.5\"],\"goal\":{\"point\":[\"2.5\",\"2.5\"]}}\n\
{\"end\":1}\n";

const AT_GOAL: &str =
    "{\"caller\":0,\"path\":\"default\",\"from\":[\"1.5\",\"1.5\"],\"goal\":{\"point\":[\"1.25\",\"1.75\"]}}\n\
{\"end\":1}\n";

const BENT: &str =
    "{\"caller\":0,\"path\":\"default\",\"from\":[\"0.5\",\"0.5\"],\"goal\":{\"point\":[\"2.5\",\"1.5\"]}}\n\
{\"end\":1}\n";

/// A word, such lines, and the lines behind the turn line that the word writes for them.
const REPORTS: [(&str, &str, &str); 8] = [
    (
        "profile",
        STRAIGHT,
        "0 0 path 0 0 2 2 goal 185364 1 2.5,2.5\n0 0 opened 2\n",
    ),
    (
        "profile",
        ROUND,
        "0 0 path 0 0 2 2 goal 262144 2 2.5,0.5 2.5,2.5\n0 0 opened 5\n",
    ),
    (
        "flow",
        STRAIGHT,
        "0 0 path 0 0 2 2 goal 185364 1 2.5,2.5\n0 0 flow NE 9 185364 987698\n",
    ),
    (
        "flow",
        ROUND,
        "0 0 path 0 0 2 2 goal 262144 2 2.5,0.5 2.5,2.5\n0 0 flow N 8 262144 1048576\n",
    ),
    (
        "flow",
        AT_GOAL,
        "0 0 path 1 1 1 1 goal 0 0\n0 0 flow - 9 92682 632872\n",
    ),
    (
        "smooth",
        ROUND,
        "0 0 path 0 0 2 2 goal 262144 2 2.5,0.5 2.5,2.5\n0 0 smooth 2 2.5,0.5 2.5,2.5\n",
    ),
    (
        "smooth",
        AT_GOAL,
        "0 0 path 1 1 1 1 goal 0 0\n0 0 smooth 0\n",
    ),
    (
        "smooth",
        BENT,
        "0 0 path 0 0 2 1 goal 158218 2 1.5,1.5 2.5,1.5\n0 0 smooth 1 2.5,1.5\n",
    ),
];

#[test]
fn words_tell_more_of_each_path(rt: HostRuntime) {
    for (word, lines, told) in REPORTS {
        let alloc = rt.alloc();
        let script = format!(in alloc; "{MAP}{lines}").expect(&rt, "memory");
        let text = format!(in alloc;
            "turn 1 regions 1 edges 0 areas 1 relabelled 0\n{told}"
        ).expect(&rt, "memory");
        for words in [&[word][..], &[word, "--workers", "3"][..]] {
            let bytes = script.as_bytes();
            assert!(rt;
                runs_to(&rt, alloc, words, bytes, &[], &[], Status::Done, &text),
                "{word} of {lines}"
            );
        }
    }
}

#[test]
fn a_read_fault_ends_the_run(rt: HostRuntime) {
    let bytes = COVER.as_bytes();
    for (read, text) in [(1, ""), (2, COVER_ANSWERS)] {
        assert!(rt;
            runs_to(
                &rt,
                rt.alloc(),
                &["replay"],
                bytes,
                &[read],
                &[],
                Status::ReadFault,
                text
            ),
            "read {read}"
        );
    }
}

#[test]
fn a_write_fault_ends_the_run(rt: HostRuntime) {
    let three = script(rt.alloc(), &[COVER, "{\"end\":3}\n"]).expect(&rt, "memory");
    let bytes = three.as_slice();
    assert!(rt;
        runs_to(
            &rt,
            rt.alloc(),
            &["replay"],
            bytes,
            &[],
            &[3],
            Status::WriteFault,
            COVER_ANSWERS,
        )
    );
}

/// The map line with spaces up to a length, and its newline.
fn padded(alloc: Global, length: usize) -> Result<Bytes, NoMemory> {
    let mut text = script(alloc, &[MAP_LINE])?;
    for _ in text.len()..length {
        text.push(b' ')?;
    }
    text.push(b'\n')?;
    Ok(text)
}

#[test]
fn a_line_has_a_limit(rt: HostRuntime) {
    let limits = [
        (8_388_608, Status::Done, None),
        (
            8_388_609,
            Status::TooLong,
            Some(Reason::TooLong { number: 1 }),
        ),
    ];
    for (length, status, why) in limits {
        let text = padded(rt.alloc(), length).expect(&rt, "memory");
        let ran = run_over(
            &rt,
            rt.alloc(),
            &["replay"],
            text.as_slice(),
            &[],
            &[],
            &OpenGate,
        )
        .expect(&rt, "memory");
        assert!(rt; ran.status == status && ran.why == why, "{length}");
    }
}

/// Appends a line that adds a unit without a side, in the middle of a cell, under a number.
fn push_unit(text: &mut Bytes, id: u32, i: u32, j: u32) -> Result<(), NoMemory> {
    let mut buffer = Buffer::new();
    text.extend(b"{\"caller\":0,\"add\":")?;
    text.extend(buffer.format(id).as_bytes())?;
    text.extend(b",\"unit\":[\"")?;
    text.extend(buffer.format(i).as_bytes())?;
    text.extend(b".5\",\"")?;
    text.extend(buffer.format(j).as_bytes())?;
    text.extend(b".5\",\"0\"]}\n")
}

/// A script that fills the store, adds one obstruction too many, removes one and adds one.
fn full_store(alloc: Global) -> Result<Bytes, NoMemory> {
    let mut text = script(alloc, &[LARGE_MAP])?;
    for id in 0..65_536u32 {
        push_unit(&mut text, id, id % 256, id / 256)?;
    }
    push_unit(&mut text, 65_536, 0, 0)?;
    text.extend(b"{\"caller\":0,\"remove\":0}\n")?;
    push_unit(&mut text, 65_536, 0, 0)?;
    text.extend(b"{\"end\":1}\n")?;
    Ok(text)
}

/// Whether the script is answered to its end, and its answers begin and end so.
fn full_store_refuses<R: Threads + Wait + Sync>(rt: &R, alloc: Global, text: &[u8]) -> bool {
    let Ok(got) = run_over(rt, alloc, &["replay"], text, &[], &[], &OpenGate) else {
        return false;
    };
    let kept = got.sink.kept();
    got.status == Status::Done
        && kept.starts_with(b"turn 1 regions 0 edges 0 areas 0 relabelled 9\n0 0 added 0\n")
        && kept.ends_with(b"\n0 65536 refused store-full\n0 65537 removed 0\n0 65538 added 65536\n")
}

#[test]
fn a_full_store_takes_one_more_after_a_remove(rt: HostRuntime) {
    let text = full_store(rt.alloc()).expect(&rt, "memory");
    assert!(rt; full_store_refuses(&rt, rt.alloc(), text.as_slice()));
}
