//! A match played whole, and the same match opened again by its map and one turn of adds of what stands after turn 1.

use super::*;

const MAP: &str =
    "{\"version\":3,\"size\":[20,20],\"callers\":2,\"classes\":[{\"name\":\"a\",\"clearance\":\"0.5\"},{\"name\":\"b\",\"clearance\":\"1\"}]}\n{\"base\":[[0,5,9,5,3]]}\n";

const PLAYED: &str =
    "{\"caller\":1,\"add\":7,\"unit\":[\"12\",\"6\",\"2\"],\"mask\":3}\n{\"caller\":0,\"add\":9,\"square\":[\"4\",\"9\",\"1\",\"0\",\"2\",\"1\"],\"mask\":1}\n{\"caller\":0,\"add\":3,\"unit\":[\"15\",\"15\",\"1\"],\"mask\":2}\n{\"caller\":1,\"move\":9,\"to\":[\"6\",\"10\"]}\n{\"caller\":1,\"add\":7,\"unit\":[\"2\",\"2\",\"1\"],\"mask\":1}\n{\"caller\":1,\"remove\":3}\n{\"end\":1}\n";

const OPENED: &str =
    "{\"caller\":0,\"add\":7,\"unit\":[\"12\",\"6\",\"2\"],\"mask\":3}\n{\"caller\":0,\"add\":9,\"square\":[\"6\",\"10\",\"1\",\"0\",\"2\",\"1\"],\"mask\":1}\n{\"end\":1}\n";

const NEXT: &str =
    "{\"caller\":0,\"path\":\"a\",\"from\":[\"1.5\",\"1.5\"],\"goal\":{\"point\":[\"9.5\",\"12.5\"]}}\n{\"caller\":1,\"move\":7,\"to\":[\"10\",\"3\"]}\n{\"caller\":1,\"region\":\"b\",\"at\":[\"6.5\",\"13.5\"]}\n{\"end\":2}\n";

const ANSWERS: &str =
    "turn 2 regions 4 edges 0 areas 4 relabelled 2\n0 0 path 1 1 6 4 near 409118 2 4.5,4.5 6.5,4.5\n1 0 moved 7\n1 1 region 0 0 2 2\n";

/// Whether the next turn after this one has the answers.
fn goes_on<R: Threads + Wait + Sync>(rt: &R, alloc: Global, turn: &str) -> bool {
    let Ok(bytes) = script(alloc, &[MAP, turn, NEXT]) else {
        return false;
    };
    match run_over(
        rt,
        alloc,
        &["replay"],
        bytes.as_slice(),
        &[],
        &[],
        &OpenGate,
    ) {
        Ok(ran) => ran.status == Status::Done && ran.sink.kept().ends_with(ANSWERS.as_bytes()),
        Err(NoMemory) => false,
    }
}

#[test]
fn a_saved_match_goes_on(rt: HostRuntime) {
    for turn in [PLAYED, OPENED] {
        assert!(rt; goes_on(&rt, rt.alloc(), turn));
    }
}
