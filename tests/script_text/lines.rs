//! Lines with their forms, as a reader takes them, and canonical lines that are written as they were read.

use super::{Ending, MAP_1, MAP_2, MAP_3, read_behind, written};
use script_text::ScriptFault;
use std::alloc::Global;
use std::process::Abort;
use std::test::*;

// The form of line 2 is told by how the script ends with it: it may end behind a base line, an end line ends a turn, and
// behind a post line a line is missing.
const BASE: Ending = (0, None);

const POST: Ending = (0, Some(ScriptFault::BadLine(3)));

const END: Ending = (1, None);

const NONE: Ending = (0, Some(ScriptFault::BadLine(2)));

/// Whether the line has this form behind a map line.
fn has_form(alloc: Global, map: &str, form: Ending, line: &str) -> bool {
    match read_behind(alloc, map, line) {
        Ok(outcome) => (outcome.turns.len(), outcome.fault) == form,
        Err(_) => false,
    }
}

/// Checks that each of the lines has this form behind a map line.
fn have_form(rt: &impl Abort, alloc: Global, map: &str, form: Ending, lines: &[&str]) {
    for line in lines {
        assert!(rt; has_form(alloc, map, form, line), "{line}");
    }
}

/// Lines, and whether they are map lines.
const MAP_LINES: &[(&str, bool)] = &[
    (
        "{\"classes\":[{\"clearance\":\"0\",\"name\":\"a\"}],\"size\":[1,2048],\"version\":3,\"callers\":64}",
        true,
    ),
    (
        "{\"classes\":[{\"clearance\":\"0\",\"name\":\"a\"}],\"size\":[1,2048],\"version\":4,\"callers\":64}",
        false,
    ),
    (
        "{\"classes\":[{\"clearance\":\"0\",\"name\":\"a\"}],\"size\":[1,2048],\"version\":1,\"callers\":65}",
        false,
    ),
    (
        "{\"classes\":[{\"clearance\":\"0\",\"name\":\"a\"}],\"size\":[1,2048],\"version\":1,\"callers\":0}",
        false,
    ),
    (
        "{\"classes\":[{\"clearance\":\"0\",\"name\":\"a\"}],\"size\":[1,2049],\"version\":1,\"callers\":1}",
        false,
    ),
];

/// Whether a script of this line alone has a map. None where there is no memory.
fn has_map(alloc: Global, line: &str) -> Option<bool> {
    match read_behind(alloc, "", line) {
        Ok(outcome) => Some(outcome.map.is_some()),
        Err(_) => None,
    }
}

#[test]
fn map_lines_have_their_form(rt: HostRuntime) {
    for &(line, is_map) in MAP_LINES {
        assert!(rt; has_map(rt.alloc(), line) == Some(is_map), "{line}");
    }
}

#[test]
fn lines_of_version_1_have_their_form(rt: HostRuntime) {
    have_form(
        &rt,
        rt.alloc(),
        MAP_1,
        BASE,
        &["{\"base\":[[1,1,1,1,1],[0,2,2,2,3]]}", "{\"base\":[]}"],
    );
    have_form(&rt, rt.alloc(), MAP_1, END, &["{\"end\":1}"]);
    have_form(
        &rt,
        rt.alloc(),
        MAP_1,
        POST,
        &[
            "{\"add\":7,\"unit\":[\"1.5\",\"0.5\",\"0.25\"],\"caller\":1}",
            "{\"caller\":0,\"add\":7,\"unit\":[\"-9\",\"0.5\",\"0.25\"]}",
            "{\"caller\":0,\"remove\":4294967295}",
            "{\"caller\":0,\"path\":\"a\",\"from\":[\"0\",\"0\"],\"goal\":{\"not-circle\":[\"2\",\"2\",\"1\"]}}",
        ],
    );
}

#[test]
fn other_lines_have_no_form(rt: HostRuntime) {
    have_form(
        &rt,
        rt.alloc(),
        MAP_1,
        NONE,
        &[
            "{\"base\":[[1,1,5,1,1]]}",
            "{\"base\":[[2,1,1,1,1]]}",
            "{\"base\":[[1,1,1,1,65536]]}",
            "{\"base\":[[1,1,1,1,1,1]]}",
            "{\"base\":[[1,1,1,1,1.0]]}",
            "{\"caller\":2,\"add\":7,\"unit\":[\"1.5\",\"0.5\",\"0.25\"]}",
            "{\"caller\":0,\"add\":7,\"unit\":[\"01\",\"0.5\",\"0.25\"]}",
            "{\"caller\":0,\"remove\":4294967296}",
            "{\"caller\":0,\"remove\":1e0}",
            "{\"caller\":0,\"region\":\"a b\",\"at\":[\"0.5\",\"0.5\"]}",
            "{\"caller\":0,\"region\":\"a\",\"at\":[\"0.5\",\"0.5\",\"0\"]}",
            "{\"end\":18446744073709551615}",
            "{\"end\":-1}",
            "{\"end\":1,\"x\":0}",
            "[]",
        ],
    );
}

#[test]
fn versions_have_their_lines(rt: HostRuntime) {
    let mask = "{\"caller\":0,\"add\":7,\"unit\":[\"1\",\"0.5\",\"0.25\"],\"mask\":1}";
    let no_mask = "{\"caller\":0,\"add\":7,\"unit\":[\"1\",\"0.5\",\"0.25\"]}";
    let moves = "{\"caller\":0,\"move\":7,\"to\":[\"0.5\",\"0.5\"]}";
    let goal =
        "{\"caller\":0,\"path\":\"a\",\"from\":[\"0\",\"0\"],\"goal\":{\"obstruction\":[1,\"1\"]}}";
    have_form(&rt, rt.alloc(), MAP_1, NONE, &[mask, moves, goal]);
    have_form(&rt, rt.alloc(), MAP_2, NONE, &[no_mask, moves, goal]);
    have_form(&rt, rt.alloc(), MAP_2, POST, &[mask]);
    have_form(&rt, rt.alloc(), MAP_3, POST, &[mask, moves, goal]);
}

#[test]
fn a_key_that_stands_twice_has_its_last_value(rt: HostRuntime) {
    let last_is_right = "{\"caller\":2,\"remove\":7,\"caller\":0}";
    let last_is_wrong = "{\"caller\":0,\"remove\":7,\"caller\":2}";
    have_form(&rt, rt.alloc(), MAP_1, POST, &[last_is_right]);
    have_form(&rt, rt.alloc(), MAP_1, NONE, &[last_is_wrong]);
}

#[test]
fn a_value_that_does_not_count_may_nest_no_deeper_than_another(rt: HostRuntime) {
    let shallow = "{\"caller\":[[[[[[[]]]]]]],\"remove\":7,\"caller\":0}";
    let deep = "{\"caller\":[[[[[[[[]]]]]]]],\"remove\":7,\"caller\":0}";
    have_form(&rt, rt.alloc(), MAP_1, POST, &[shallow]);
    have_form(&rt, rt.alloc(), MAP_1, NONE, &[deep]);
}

/// A script with a post of each form, as it is written.
const CANONICAL: &str =
    "{\"version\":3,\"size\":[3,2],\"callers\":1,\"classes\":[{\"name\":\"default\",\"clearance\":\"0.5\"}]}\n\
    {\"caller\":0,\"add\":7,\"unit\":[\"1.5\",\"0.5\",\"0.25\"],\"mask\":3}\n\
    {\"caller\":0,\"add\":8,\"square\":[\"2.5\",\"2.5\",\"0\",\"1\",\"1\",\"0.5\"],\"mask\":65535}\n\
    {\"caller\":0,\"remove\":7}\n\
    {\"caller\":0,\"move\":7,\"to\":[\"-0.5\",\"0.0000152587890625\"]}\n\
    {\"caller\":0,\"path\":\"default\",\"from\":[\"0.5\",\"0.5\"],\"goal\":{\"not-circle\":[\"2\",\"2\",\"1\"]}}\n\
    {\"caller\":0,\"path\":\"default\",\"from\":[\"0.5\",\"0.5\"],\"goal\":{\"obstruction\":[7,\"1\"]}}\n\
    {\"caller\":0,\"region\":\"default\",\"at\":[\"0.5\",\"0.5\"]}\n\
    {\"end\":1}\n";

#[test]
fn a_script_is_written_as_it_was_read(rt: HostRuntime) {
    let outcome = read_behind(rt.alloc(), "", CANONICAL).expect(&rt, "memory");
    let script = written(rt.alloc(), &outcome).expect(&rt, "the script");
    assert!(rt; script.as_slice() == CANONICAL.as_bytes());
}
