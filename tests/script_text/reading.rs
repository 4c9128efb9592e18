//! A script of two turns and three callers: read whole, cut at each byte, and from a source that fails.

use super::{Ending, read_script, written};
use nav_types::{Bytes, NoMemory};
use script_text::ScriptFault;
use std::alloc::Global;
use std::test::*;

/// The lines of the script, each with how the script ends where it is cut within the line, and behind it.
const LINES: &[(&str, Ending, Ending)] = &[
    (
        "{\"version\":1,\"size\":[5,4],\"callers\":3,\"classes\":[{\"name\":\"infantry\",\"clearance\":\"0.5\"}]}\n",
        (0, Some(ScriptFault::BadLine(1))),
        (0, None),
    ),
    (
        "{\"base\":[[0,0,1,1,1],[2,2,2,3,1]]}\n",
        (0, Some(ScriptFault::BadLine(2))),
        (0, None),
    ),
    (
        "{\"base\":[[4,0,4,0,1]]}\n",
        (0, Some(ScriptFault::BadLine(3))),
        (0, None),
    ),
    (
        "{\"caller\":2,\"remove\":7}\n",
        (0, Some(ScriptFault::BadLine(4))),
        (0, Some(ScriptFault::BadLine(5))),
    ),
    (
        "{\"caller\":0,\"region\":\"infantry\",\"at\":[\"0.5\",\"0.5\"]}\n",
        (0, Some(ScriptFault::BadLine(5))),
        (0, Some(ScriptFault::BadLine(6))),
    ),
    (
        "{\"caller\":2,\"remove\":9}\n",
        (0, Some(ScriptFault::BadLine(6))),
        (0, Some(ScriptFault::BadLine(7))),
    ),
    (
        "{\"end\":1}\n",
        (0, Some(ScriptFault::BadLine(7))),
        (1, None),
    ),
    (
        "{\"caller\":1,\"add\":3,\"unit\":[\"2.5\",\"2.5\",\"0.5\"]}\n",
        (1, Some(ScriptFault::BadLine(8))),
        (1, Some(ScriptFault::BadLine(9))),
    ),
    (
        "{\"end\":2}\n",
        (1, Some(ScriptFault::BadLine(9))),
        (2, None),
    ),
];

/// The canonical text of the script.
const CANONICAL: &str =
    "{\"version\":1,\"size\":[5,4],\"callers\":3,\"classes\":[{\"name\":\"infantry\",\"clearance\":\"0.5\"}]}\n\
    {\"base\":[[0,0,1,1,1],[2,2,2,3,1],[4,0,4,0,1]]}\n\
    {\"caller\":0,\"region\":\"infantry\",\"at\":[\"0.5\",\"0.5\"]}\n\
    {\"caller\":2,\"remove\":7}\n\
    {\"caller\":2,\"remove\":9}\n\
    {\"end\":1}\n\
    {\"caller\":1,\"add\":3,\"unit\":[\"2.5\",\"2.5\",\"0.5\"]}\n\
    {\"end\":2}\n";

/// The whole script. Its last line has no newline.
fn whole_script(alloc: Global) -> Result<Vec<u8>, NoMemory> {
    let mut script = Vec::new(alloc);
    for &(text, _, _) in LINES {
        script.extend_from_slice(text.as_bytes())?;
    }
    script.pop();
    Ok(script)
}

/// Whether a script ends so, where a read takes so many bytes at most, and the reads of these numbers fail.
fn ends_as(alloc: Global, script: &[u8], piece: usize, fails: &[u64], wanted: Ending) -> bool {
    match read_script(alloc, script, piece, fails) {
        Ok(found) => (found.turns.len(), found.fault) == wanted,
        Err(NoMemory) => false,
    }
}

/// Whether the script ends as it must, where it is cut before each of its bytes.
fn ends_where_cut(alloc: Global, piece: usize) -> Result<bool, NoMemory> {
    let mut script = Bytes::new(alloc);
    let mut wanted = (0, Some(ScriptFault::BadLine(1)));
    for &(text, within, behind) in LINES {
        for byte in text.as_bytes() {
            // The last line of a script needs no newline.
            if *byte == b'\n' {
                wanted = behind;
            }
            if !ends_as(alloc, script.as_slice(), piece, &[], wanted) {
                return Ok(false);
            }
            script.push(*byte)?;
            wanted = within;
        }
        wanted = behind;
    }
    Ok(ends_as(alloc, script.as_slice(), piece, &[], wanted))
}

#[test]
fn reads_the_map_and_the_turns(rt: HostRuntime) {
    let alloc = rt.alloc();
    let script = whole_script(alloc).expect(&rt, "memory");
    for piece in [1usize, 7, 4096] {
        let outcome = read_script(alloc, script.as_slice(), piece, &[]).expect(&rt, "memory");
        let text = written(alloc, &outcome).expect(&rt, "the text");
        assert!(rt; text.as_slice() == CANONICAL.as_bytes(), "{piece}");
    }
}

#[test]
fn ends_where_a_script_is_cut(rt: HostRuntime) {
    for piece in [1usize, 7, 4096] {
        assert!(rt; ends_where_cut(rt.alloc(), piece) == Ok(true), "{piece}");
    }
}

#[test]
fn answers_a_read_that_fails(rt: HostRuntime) {
    let alloc = rt.alloc();
    let script = whole_script(alloc).expect(&rt, "memory");
    let fault = Some(ScriptFault::ReadFault);
    assert!(rt; ends_as(alloc, script.as_slice(), 4096, &[1], (0, fault)));
    assert!(rt; ends_as(alloc, script.as_slice(), 4096, &[2], (1, fault)));
}
