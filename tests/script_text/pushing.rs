//! Scripts that are pushed, in pieces that are cut anywhere, give what a reader gives.

use super::{MAP_2, Outcome, add_base, keep, read_script, written};
use nav_types::{Bytes, NoMemory};
use posts::{BaseRects, Journal};
use script_text::{PushedScript, ScriptFault};
use std::alloc::Global;
use std::test::*;

/// A script of version 1: paths alone.
pub(super) const FIRST: &[&str] = &[
    "{\"version\":1,\"size\":[5,4],\"callers\":1,\"classes\":[{\"name\":\"infantry\",\"clearance\":\"0\"}]}\n",
    "{\"caller\":0,\"path\":\"infantry\",\"from\":[\"0.5\",\"0.5\"],\"goal\":{\"point\":[\"4.5\",\"3.5\"]}}\n",
    "{\"caller\":0,\"path\":\"infantry\",\"from\":[\"3.5\",\"1.5\"],\"goal\":{\"point\":[\"0.5\",\"0.5\"]}}\n",
    "{\"caller\":0,\"path\":\"infantry\",\"from\":[\"2.5\",\"2.5\"],\"goal\":{\"point\":[\"2.5\",\"2.5\"]}}\n",
    "{\"end\":1}\n",
];

/// A script of version 3: base rectangles, and posts of each form.
pub(super) const SKIRMISH: &[&str] = &[
    "{\"version\":3,\"size\":[12,8],\"callers\":2,\"classes\":[{\"name\":\"infantry\",\"clearance\":\"0.5\"},{\"name\":\"siege\",\"clearance\":\"1.5\"}]}\n",
    "{\"base\":[[0,7,11,7,3]]}\n",
    "{\"caller\":0,\"add\":1,\"square\":[\"6\",\"3\",\"1\",\"0\",\"0.5\",\"2\"],\"mask\":3}\n",
    "{\"caller\":0,\"path\":\"infantry\",\"from\":[\"1.5\",\"1.5\"],\"goal\":{\"obstruction\":[1,\"1\"]}}\n",
    "{\"caller\":1,\"path\":\"siege\",\"from\":[\"10.5\",\"3.5\"],\"goal\":{\"circle\":[\"1.5\",\"3.5\",\"1\"]}}\n",
    "{\"caller\":1,\"region\":\"siege\",\"at\":[\"6.5\",\"3.5\"]}\n",
    "{\"end\":1}\n",
    "{\"caller\":1,\"path\":\"siege\",\"from\":[\"10.5\",\"3.5\"],\"goal\":{\"circle\":[\"1.5\",\"3.5\",\"1\"]}}\n",
    "{\"caller\":0,\"move\":1,\"to\":[\"6\",\"1\"]}\n",
    "{\"caller\":0,\"remove\":2}\n",
    "{\"end\":2}\n",
];

/// A script of version 2 with two base lines, and lines of which one is bad.
const WITH_BAD: &[&str] = &[
    MAP_2,
    "{\"base\":[[0,0,1,1,1]]}\n",
    "{\"base\":[[2,2,2,3,1]]}\n",
    "{\"caller\":1,\"add\":1,\"unit\":[\"2.5\",\"2.5\",\"0.5\"],\"mask\":1}\n",
    "{\"end\":1}\n",
    "{\"caller\":0,\"remove\":1}\n",
    "{\"caller\":2,\"remove\":1}\n",
    "{\"end\":2}\n",
];

/// Ends an outcome by a refusal.
fn end_by(alloc: Global, script: &PushedScript, fault: ScriptFault, outcome: &mut Outcome) {
    outcome.fault = Some(fault);
    match fault {
        ScriptFault::BadLine(_) => outcome.cause = script.cause(alloc).ok(),
        _ => {}
    }
}

/// Pushes a piece, and keeps what its lines give, twenty items at most. It answers whether the script goes on behind it.
fn push_piece(
    alloc: Global,
    script: &mut PushedScript,
    piece: &[u8],
    outcome: &mut Outcome,
    base: &mut BaseRects,
) -> Result<bool, NoMemory> {
    let mut bytes = piece;
    for _ in 0..20u32 {
        match script.next(alloc, &mut bytes) {
            Ok(Some(item)) => keep(item, outcome, base)?,
            Ok(None) => return Ok(true),
            Err(fault) => {
                end_by(alloc, script, fault, outcome);
                return Ok(false);
            }
        }
    }
    Ok(false)
}

/// Ends a script, and keeps what its last line gives.
fn end_script(
    alloc: Global,
    script: &mut PushedScript,
    outcome: &mut Outcome,
    base: &mut BaseRects,
) -> Result<(), NoMemory> {
    for _ in 0..2u32 {
        match script.finish(alloc) {
            Ok(Some(item)) => keep(item, outcome, base)?,
            Ok(None) => return Ok(()),
            Err(fault) => {
                end_by(alloc, script, fault, outcome);
                return Ok(());
            }
        }
    }
    Ok(())
}

/// What the pieces of a script give that are pushed one after another, and then its end.
fn push_script(alloc: Global, pieces: &[&[u8]]) -> Result<Outcome, NoMemory> {
    let mut outcome = Outcome {
        map: None,
        turns: Journal::new(alloc),
        fault: None,
        cause: None,
    };
    let mut base = BaseRects::new(alloc);
    push_all(alloc, pieces, &mut outcome, &mut base)?;
    add_base(alloc, &mut outcome, &base)?;
    Ok(outcome)
}

/// Pushes the pieces, and ends the script where none was refused.
fn push_all(
    alloc: Global,
    pieces: &[&[u8]],
    outcome: &mut Outcome,
    base: &mut BaseRects,
) -> Result<(), NoMemory> {
    let mut script = PushedScript::new(alloc);
    for piece in pieces {
        if !push_piece(alloc, &mut script, piece, outcome, base)? {
            return Ok(());
        }
    }
    end_script(alloc, &mut script, outcome, base)
}

/// Whether two outcomes are the same.
fn are_alike(alloc: Global, one: &Outcome, other: &Outcome) -> bool {
    let text = written(alloc, one);
    let other_text = written(alloc, other);
    let same_text = match (&text, &other_text) {
        (Some(text), Some(other_text)) => text.as_slice() == other_text.as_slice(),
        (None, None) => true,
        _ => false,
    };
    same_text
        && one.turns.len() == other.turns.len()
        && one.fault == other.fault
        && one.cause == other.cause
}

/// Whether the script gives the same to a reader, and pushed byte by byte, in pieces of seven bytes and whole.
fn gives_alike(alloc: Global, script: &[u8]) -> Result<bool, NoMemory> {
    let read = read_script(alloc, script, 4096, &[])?;
    for size in [1usize, 7, 4096] {
        let mut pieces = Vec::new(alloc);
        for piece in script.chunks(size) {
            pieces.push(piece)?;
        }
        let pushed = push_script(alloc, pieces.as_slice())?;
        if !are_alike(alloc, &read, &pushed) {
            return Ok(false);
        }
    }
    Ok(true)
}

/// Whether the lines, cut off in the middle of each and before its newline, give the same to a reader and pushed; whole,
/// they are pushed line by line too.
fn lines_give_alike(alloc: Global, lines: &[&str]) -> Result<bool, NoMemory> {
    let mut script = Bytes::new(alloc);
    let mut pieces = Vec::new(alloc);
    let mut alike = true;
    for line in lines {
        let Some((_, text)) = line.as_bytes().split_last() else {
            return Ok(false);
        };
        let (front, behind) = text.split_at(text.len() / 2);
        script.extend(front)?;
        alike &= gives_alike(alloc, script.as_slice())?;
        script.extend(behind)?;
        alike &= gives_alike(alloc, script.as_slice())?;
        script.push(b'\n')?;
        pieces.push(line.as_bytes())?;
    }
    let read = read_script(alloc, script.as_slice(), 4096, &[])?;
    let pushed = push_script(alloc, pieces.as_slice())?;
    Ok(alike && are_alike(alloc, &read, &pushed) && gives_alike(alloc, script.as_slice())?)
}

#[test]
fn pushed_scripts_give_what_a_reader_gives(rt: HostRuntime) {
    let alloc = rt.alloc();
    assert!(rt; lines_give_alike(alloc, FIRST) == Ok(true));
    assert!(rt; lines_give_alike(alloc, SKIRMISH) == Ok(true));
    assert!(rt; lines_give_alike(alloc, WITH_BAD) == Ok(true));
}

#[test]
fn a_pushed_script_keeps_the_beginning_of_a_line(rt: HostRuntime) {
    let alloc = rt.alloc();
    let mut script = PushedScript::new(alloc);
    let mut bytes = "{\"version\":1".as_bytes();
    assert!(rt; matches!(script.next(alloc, &mut bytes), Ok(None)));
    assert!(rt; bytes.is_empty());
    assert!(rt; script.held() == 12);
}
