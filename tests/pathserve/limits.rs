//! The limits of a script, with a value on each side.

use super::{MAP, run_over, runs_to, script};
use io_edges::OpenGate;
use itoa::Buffer;
use nav_types::{Bytes, NoMemory};
use pathserve::Status;
use std::alloc::Global;
use std::sync::Wait;
use std::test::*;
use std::thread::Threads;

/// What a replay of a bad second line writes.
const BAD: [&str; 2] = ["", "bad line 2\n"];

/// The line of a turn on an open map of one chunk that nothing changes.
const OPEN: &str = "turn 1 regions 1 edges 0 areas 1 relabelled 0\n";

/// The same map in version 3.
const NEW_MAP: &str =
    "{\"version\":3,\"size\":[3,3],\"callers\":1,\"classes\":[{\"name\":\"default\",\"clearance\":\"0\"}]}\n";

/// Map lines, and whether they are in the grammar.
const MAP_LINES: [(&str, bool); 19] = [
    (
        "{\"version\":1,\"size\":[2048,1],\"callers\":1,\"classes\":[{\"name\":\"default\",\"clearance\":\"0\"}]}\n",
        true,
    ),
    (
        "{\"version\":1,\"size\":[2049,1],\"callers\":1,\"classes\":[{\"name\":\"default\",\"clearance\":\"0\"}]}\n",
        false,
    ),
    (
        "{\"version\":1,\"size\":[0,1],\"callers\":1,\"classes\":[{\"name\":\"default\",\"clearance\":\"0\"}]}\n",
        false,
    ),
    (
        "{\"version\":1,\"size\":[1,2048],\"callers\":1,\"classes\":[{\"name\":\"default\",\"clearance\":\"0\"}]}\n",
        true,
    ),
    (
        "{\"version\":1,\"size\":[1,2049],\"callers\":1,\"classes\":[{\"name\":\"default\",\"clearance\":\"0\"}]}\n",
        false,
    ),
    (
        "{\"version\":1,\"size\":[1,0],\"callers\":1,\"classes\":[{\"name\":\"default\",\"clearance\":\"0\"}]}\n",
        false,
    ),
    (
        "{\"version\":1,\"size\":[3,3],\"callers\":64,\"classes\":[{\"name\":\"default\",\"clearance\":\"0\"}]}\n",
        true,
    ),
    (
        "{\"version\":1,\"size\":[3,3],\"callers\":65,\"classes\":[{\"name\":\"default\",\"clearance\":\"0\"}]}\n",
        false,
    ),
    (
        "{\"version\":1,\"size\":[3,3],\"callers\":0,\"classes\":[{\"name\":\"default\",\"clearance\":\"0\"}]}\n",
        false,
    ),
    (
        "{\"version\":1,\"size\":[3,3],\"callers\":1,\"classes\":[{\"name\":\"default\",\"clearance\":\"64\"}]}\n",
        true,
    ),
    (
        "{\"version\":1,\"size\":[3,3],\"callers\":1,\"classes\":[{\"name\":\"default\",\"clearance\":\"64.0000152587890625\"}]}\n",
        false,
    ),
    (
        "{\"version\":1,\"size\":[3,3],\"callers\":1,\"classes\":[{\"name\":\"default\",\"clearance\":\"0\"}]}\n",
        true,
    ),
    (
        "{\"version\":1,\"size\":[3,3],\"callers\":1,\"classes\":[{\"name\":\"default\",\"clearance\":\"-0.0000152587890625\"}]}\n",
        false,
    ),
    (
        "{\"version\":1,\"size\":[3,3],\"callers\":1,\"classes\":[{\"name\":\"nnnnnnnnnnnnnnnnnnnnnnnnnnnnnnnnnnnnnnnnnnnnnnnnnnnnnnnnnnnnnnnn\",\"clearance\":\"0\"}]}\n",
        true,
    ),
    (
        "{\"version\":1,\"size\":[3,3],\"callers\":1,\"classes\":[{\"name\":\"nnnnnnnnnnnnnnnnnnnnnnnnnnnnnnnnnnnnnnnnnnnnnnnnnnnnnnnnnnnnnnnnn\",\"clearance\":\"0\"}]}\n",
        false,
    ),
    (
        "{\"version\":1,\"size\":[3,3],\"callers\":1,\"classes\":[{\"name\":\"\",\"clearance\":\"0\"}]}\n",
        false,
    ),
    (
        "{\"version\":3,\"size\":[3,3],\"callers\":1,\"classes\":[{\"name\":\"default\",\"clearance\":\"0\"}]}\n",
        true,
    ),
    (
        "{\"version\":4,\"size\":[3,3],\"callers\":1,\"classes\":[{\"name\":\"default\",\"clearance\":\"0\"}]}\n",
        false,
    ),
    (
        "{\"version\":0,\"size\":[3,3],\"callers\":1,\"classes\":[{\"name\":\"default\",\"clearance\":\"0\"}]}\n",
        false,
    ),
];

/// Lines behind the map line of version 3 and before the first end line, and what a replay writes for them. Obstructions
/// are for no class, so that they block nobody.
const POST_LINES: [(&str, [&str; 2]); 30] = [
    (
        "{\"caller\":0,\"add\":1,\"unit\":[\"1.5\",\"1.5\",\"256\"],\"mask\":0}\n",
        [OPEN, "0 0 added 1\n"],
    ),
    (
        "{\"caller\":0,\"add\":1,\"unit\":[\"1.5\",\"1.5\",\"256.0000152587890625\"],\"mask\":0}\n",
        [OPEN, "0 0 refused bad-shape\n"],
    ),
    (
        "{\"caller\":0,\"add\":1,\"unit\":[\"1.5\",\"1.5\",\"0\"],\"mask\":0}\n",
        [OPEN, "0 0 added 1\n"],
    ),
    (
        "{\"caller\":0,\"add\":1,\"unit\":[\"1.5\",\"1.5\",\"-0.0000152587890625\"],\"mask\":0}\n",
        [OPEN, "0 0 refused bad-shape\n"],
    ),
    (
        "{\"caller\":0,\"add\":1,\"unit\":[\"2.9999847412109375\",\"1.5\",\"0\"],\"mask\":0}\n",
        [OPEN, "0 0 added 1\n"],
    ),
    (
        "{\"caller\":0,\"add\":1,\"unit\":[\"3\",\"1.5\",\"0\"],\"mask\":0}\n",
        [OPEN, "0 0 refused bad-shape\n"],
    ),
    (
        "{\"caller\":0,\"add\":1,\"square\":[\"1.5\",\"1.5\",\"1.0038909912109375\",\"0\",\"0\",\"0\"],\"mask\":0}\n",
        [OPEN, "0 0 added 1\n"],
    ),
    (
        "{\"caller\":0,\"add\":1,\"square\":[\"1.5\",\"1.5\",\"1.00390625\",\"0\",\"0\",\"0\"],\"mask\":0}\n",
        [OPEN, "0 0 refused bad-shape\n"],
    ),
    (
        "{\"caller\":0,\"add\":1,\"square\":[\"1.5\",\"1.5\",\"0.99609375\",\"0\",\"0\",\"0\"],\"mask\":0}\n",
        [OPEN, "0 0 added 1\n"],
    ),
    (
        "{\"caller\":0,\"add\":1,\"square\":[\"1.5\",\"1.5\",\"0.9960784912109375\",\"0\",\"0\",\"0\"],\"mask\":0}\n",
        [OPEN, "0 0 refused bad-shape\n"],
    ),
    (
        "{\"caller\":0,\"add\":4294967295,\"unit\":[\"1.5\",\"1.5\",\"0.25\"],\"mask\":0}\n",
        [OPEN, "0 0 added 4294967295\n"],
    ),
    (
        "{\"caller\":0,\"add\":4294967296,\"unit\":[\"1.5\",\"1.5\",\"0.25\"],\"mask\":0}\n",
        BAD,
    ),
    (
        "{\"caller\":0,\"add\":1,\"unit\":[\"1.5\",\"1.5\",\"-1\"],\"mask\":65535}\n",
        [OPEN, "0 0 refused bad-shape\n"],
    ),
    (
        "{\"caller\":0,\"add\":1,\"unit\":[\"1.5\",\"1.5\",\"-1\"],\"mask\":65536}\n",
        BAD,
    ),
    (
        "{\"caller\":0,\"remove\":4294967295}\n",
        [OPEN, "0 0 refused unknown-id\n"],
    ),
    ("{\"caller\":1,\"remove\":4294967295}\n", BAD),
    (
        "{\"caller\":0,\"path\":\"default\",\"from\":[\"0.5\",\"0.5\"],\"goal\":{\"circle\":[\"1.5\",\"1.5\",\"4096\"]}}\n",
        [OPEN, "0 0 path 0 0 0 0 goal 0 0\n"],
    ),
    (
        "{\"caller\":0,\"path\":\"default\",\"from\":[\"0.5\",\"0.5\"],\"goal\":{\"circle\":[\"1.5\",\"1.5\",\"4096.0000152587890625\"]}}\n",
        [OPEN, "0 0 refused bad-shape\n"],
    ),
    (
        "{\"caller\":0,\"path\":\"default\",\"from\":[\"0.5\",\"0.5\"],\"goal\":{\"square\":[\"1.5\",\"1.5\",\"1\",\"0\",\"4096\",\"4096\"]}}\n",
        [OPEN, "0 0 path 0 0 0 0 goal 0 0\n"],
    ),
    (
        "{\"caller\":0,\"path\":\"default\",\"from\":[\"0.5\",\"0.5\"],\"goal\":{\"square\":[\"1.5\",\"1.5\",\"1\",\"0\",\"4096\",\"4096.0000152587890625\"]}}\n",
        [OPEN, "0 0 refused bad-shape\n"],
    ),
    (
        "{\"caller\":0,\"path\":\"default\",\"from\":[\"0.5\",\"0.5\"],\"goal\":{\"obstruction\":[1,\"3840\"]}}\n",
        [OPEN, "0 0 refused unknown-id\n"],
    ),
    (
        "{\"caller\":0,\"path\":\"default\",\"from\":[\"0.5\",\"0.5\"],\"goal\":{\"obstruction\":[1,\"3840.0000152587890625\"]}}\n",
        [OPEN, "0 0 refused bad-shape\n"],
    ),
    (
        "{\"caller\":0,\"path\":\"default\",\"from\":[\"0.5\",\"0.5\"],\"goal\":{\"point\":[\"0.5\",\"0.5000000000000000\"]}}\n",
        [OPEN, "0 0 path 0 0 0 0 goal 0 0\n"],
    ),
    (
        "{\"caller\":0,\"path\":\"default\",\"from\":[\"0.5\",\"0.5\"],\"goal\":{\"point\":[\"0.5\",\"0.50000000000000000\"]}}\n",
        BAD,
    ),
    (
        "{\"caller\":0,\"path\":\"default\",\"from\":[\"0.5\",\"0.5\"],\"goal\":{\"point\":[\"-32768\",\"0.5\"]}}\n",
        [OPEN, "0 0 refused goal-outside\n"],
    ),
    (
        "{\"caller\":0,\"path\":\"default\",\"from\":[\"0.5\",\"0.5\"],\"goal\":{\"point\":[\"-32768.0000152587890625\",\"0.5\"]}}\n",
        BAD,
    ),
    (
        "{\"caller\":0,\"path\":\"default\",\"from\":[\"32767.9999847412109375\",\"0.5\"],\"goal\":{\"point\":[\"0.5\",\"0.5\"]}}\n",
        [OPEN, "0 0 refused start-outside\n"],
    ),
    (
        "{\"caller\":0,\"path\":\"default\",\"from\":[\"32768\",\"0.5\"],\"goal\":{\"point\":[\"0.5\",\"0.5\"]}}\n",
        BAD,
    ),
    (
        "{\"caller\":0,\"region\":\"nnnnnnnnnnnnnnnnnnnnnnnnnnnnnnnnnnnnnnnnnnnnnnnnnnnnnnnnnnnnnnnn\",\"at\":[\"0.5\",\"0.5\"]}\n",
        [OPEN, "0 0 refused unknown-class\n"],
    ),
    (
        "{\"caller\":0,\"region\":\"nnnnnnnnnnnnnnnnnnnnnnnnnnnnnnnnnnnnnnnnnnnnnnnnnnnnnnnnnnnnnnnnn\",\"at\":[\"0.5\",\"0.5\"]}\n",
        BAD,
    ),
];

/// Lines behind the map line of version 1, which block the whole map or are bad there.
const BLOCKING_LINES: [(&str, [&str; 2]); 9] = [
    (
        "{\"caller\":0,\"add\":1,\"unit\":[\"1.5\",\"1.5\",\"256\"]}\n",
        [
            "turn 1 regions 0 edges 0 areas 0 relabelled 1\n",
            "0 0 added 1\n",
        ],
    ),
    (
        "{\"caller\":0,\"add\":4294967295,\"unit\":[\"1.5\",\"1.5\",\"1\"]}\n",
        [
            "turn 1 regions 0 edges 0 areas 0 relabelled 1\n",
            "0 0 added 4294967295\n",
        ],
    ),
    (
        "{\"base\":[[0,0,2,2,65535]]}\n",
        ["turn 1 regions 0 edges 0 areas 0 relabelled 0\n", ""],
    ),
    ("{\"base\":[[0,0,2,2,65536]]}\n", BAD),
    ("{\"base\":[[0,0,3,2,1]]}\n", BAD),
    ("{\"base\":[[0,0,2,3,1]]}\n", BAD),
    ("{\"base\":[[2,0,1,2,1]]}\n", BAD),
    ("{\"base\":[[0,2,2,1,1]]}\n", BAD),
    (
        "[[[[[[[[[[[[[[[[[[[[[[[[[[[[[[[[[[[[[[[[[[[[[[[[[[[[[[[[[[[[[[[[[[[[[[[[[[[[[[[[[[[[[[[[[[[[[[[[[[[[[[[[[[[[[[[[[[[[[[[[[[[[[[[[[[[[[[[[[[[[[[[[[[[[[[[[[[[[[[[[[[[[[[[[[[[[[[[[[[[[[[[[[[[[[[[[[[[[[[[[\n",
        BAD,
    ),
];

#[test]
fn a_map_line_has_limits(rt: HostRuntime) {
    for (line, is_good) in MAP_LINES {
        let (status, text) = if is_good {
            (Status::Done, "")
        } else {
            (Status::BadLine, "bad line 1\n")
        };
        assert!(rt;
            runs_to(
                &rt,
                rt.alloc(),
                &["replay"],
                line.as_bytes(),
                &[],
                &[],
                status,
                text
            ),
            "{line}"
        );
    }
}

/// A map line with so many classes.
fn map_of_classes(alloc: Global, count: u8) -> Result<Bytes, NoMemory> {
    let mut buffer = Buffer::new();
    let mut line = script(
        alloc,
        &["{\"version\":1,\"size\":[3,3],\"callers\":1,\"classes\":["],
    )?;
    for class in 0..count {
        line.extend(if class == 0 {
            b"{\"name\":\"c"
        } else {
            b",{\"name\":\"c"
        })?;
        line.extend(buffer.format(class).as_bytes())?;
        line.extend(b"\",\"clearance\":\"0\"}")?;
    }
    line.extend(b"]}\n")?;
    Ok(line)
}

#[test]
fn a_map_has_sixteen_classes_at_most(rt: HostRuntime) {
    for (count, status, text) in [
        (16, Status::Done, ""),
        (17, Status::BadLine, "bad line 1\n"),
    ] {
        let line = map_of_classes(rt.alloc(), count).expect(&rt, "memory");
        assert!(rt;
            runs_to(
                &rt,
                rt.alloc(),
                &["replay"],
                line.as_slice(),
                &[],
                &[],
                status,
                text
            )
        );
    }
}

/// Whether a replay of these lines behind the map line, in turn 1, writes this.
fn tells<R: Threads + Wait + Sync>(
    rt: &R,
    alloc: Global,
    map: &str,
    line: &str,
    told: [&str; 2],
) -> Result<bool, NoMemory> {
    let given = script(alloc, &[map, line, "{\"end\":1}\n"])?;
    let text = script(alloc, &told)?;
    let ran = run_over(
        rt,
        alloc,
        &["replay"],
        given.as_slice(),
        &[],
        &[],
        &OpenGate,
    )?;
    let status = if told == BAD {
        Status::BadLine
    } else {
        Status::Done
    };
    Ok(ran.status == status && ran.sink.kept() == text.as_slice())
}

#[test]
fn lines_have_limits(rt: HostRuntime) {
    for (line, told) in POST_LINES {
        assert!(rt;
            tells(&rt, rt.alloc(), NEW_MAP, line, told) == Ok(true),
            "{line}"
        );
    }
    for (line, told) in BLOCKING_LINES {
        assert!(rt;
            tells(&rt, rt.alloc(), MAP, line, told) == Ok(true),
            "{line}"
        );
    }
}
