//! The example in the head of the crate.

use match_play::{Match, MatchFault, Report};
use std::test::*;

#[test]
fn example(rt: HostRuntime) -> Result<(), MatchFault> {
    let alloc = rt.alloc();
    let map =
        r#"{"version":1,"size":[5,4],"callers":1,"classes":[{"name":"unit","clearance":"0"}]}"#;
    let post = r#"{"caller":0,"path":"unit","from":["0.5","0.5"],"goal":{"point":["4.5","3.5"]}}"#;
    let mut game = Match::open(alloc, Report::Answers);
    for line in [map, post, r#"{"end":1}"#] {
        game.feed(alloc, &mut line.as_bytes())?;
        game.feed(alloc, &mut b"\n".as_slice())?;
    }
    let answers =
        "turn 1 regions 1 edges 0 areas 1 relabelled 0\n0 0 path 0 0 4 3 goal 343582 2 3.5,3.5 4.5,3.5\n";
    assert!(rt; game.take(alloc).as_slice() == answers.as_bytes());
    Ok(())
}
