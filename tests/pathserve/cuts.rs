//! A script that is cut behind each of its bytes in turn.

use super::{runs_to, script};
use pathserve::Status;
use std::test::*;

/// The lines of a script of two callers: a map, a post of each, and an end line.
const LINES: [&str; 4] = [
    "{\"version\":1,\"size\":[3,1],\"callers\":2,\"classes\":[{\"name\":\"default\",\"clearance\":\"0\"}]}\n",
    "{\"caller\":0,\"path\":\"default\",\"from\":[\"0.5\",\"0.5\"],\"goal\":{\"point\":[\"2.5\",\"0.5\"]}}\n",
    "{\"caller\":1,\"add\":1,\"unit\":[\"1.5\",\"0.5\",\"0.25\"]}\n",
    "{\"end\":1}\n",
];

/// The answers to the script.
const ANSWERS: &str = "turn 1 regions 2 edges 0 areas 2 relabelled 1\n\
0 0 path 0 0 0 0 near 0 0\n\
1 0 added 1\n";

/// How a replay of the first bytes of the script ends, so many, and what it writes. A line that lacks its newline alone
/// is whole; the input may end behind the map line and behind the end line.
fn ending(cut: usize) -> (Status, &'static str) {
    let [map, path, add, end] = LINES;
    let second = map.len().saturating_add(path.len());
    let third = second.saturating_add(add.len());
    let whole = third.saturating_add(end.len());
    // with the newline that may lack
    let lines = cut.saturating_add(1);
    if lines < map.len() {
        (Status::BadLine, "bad line 1\n")
    } else if cut <= map.len() {
        (Status::Done, "")
    } else if lines < second {
        (Status::BadLine, "bad line 2\n")
    } else if lines < third {
        (Status::BadLine, "bad line 3\n")
    } else if lines < whole {
        (Status::BadLine, "bad line 4\n")
    } else {
        (Status::Done, ANSWERS)
    }
}

#[test]
fn a_script_may_be_cut_anywhere(rt: HostRuntime) {
    let whole = script(rt.alloc(), &LINES).expect(&rt, "memory");
    for cut in 0..=whole.len() {
        let (given, _) = whole.as_slice().split_at(cut);
        let (status, text) = ending(cut);
        assert!(rt;
            runs_to(&rt, rt.alloc(), &["replay"], given, &[], &[], status, text),
            "{cut}"
        );
        // a whole script is served in more than one way, and one without posts leaves its map line alone
        if text == ANSWERS {
            continue;
        }
        let served = if status == Status::Done {
            LINES[0]
        } else {
            text
        };
        assert!(rt;
            runs_to(&rt, rt.alloc(), &["serve"], given, &[], &[], status, served),
            "{cut}"
        );
    }
}
