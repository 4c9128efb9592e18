//! Replies of every kind with their lines, the text of a turn, and summaries.

use answer_text::{push_noted_text, summary_text, turn_text, write_reply};
use nav_types::{Bytes, Cell, Cost, NoMemory};
use posts::{
    AllReplies, Answer, CallerReplies, EditReply, Note, PathAnswer, Refusal, RegionAnswer, Replies,
    Reply, Tallies, TurnReplies,
};
use std::alloc::Global;
use std::test::*;
use walks::Waypoints;

/// The text of the first turn.
const FIRST: &str = "turn 1 regions 2 edges 0 areas 2 relabelled 1\n\
    0 0 added 1\n\
    0 1 path 0 0 1 0 goal 65536 1 1.5,0.5\n\
    0 2 path 0 0 1 0 near 65536 1 1.5,0.5\n\
    0 3 refused unknown-id\n\
    0 4 refused bad-shape\n";

/// The text of the second turn.
const SECOND: &str = "turn 2 regions 1 edges 0 areas 1 relabelled 1\n\
    0 0 moved 1\n\
    0 1 removed 1\n\
    2 0 region 0 0 0 0\n\
    2 1 nowhere\n\
    2 2 path 0 0 2 0 goal 250000 2 1.5,0.5 2.5,0.5\n";

/// The text of the first turn with its opened numbers.
const FIRST_PROFILE: &str = "turn 1 regions 2 edges 0 areas 2 relabelled 1\n\
    0 0 added 1\n\
    0 1 path 0 0 1 0 goal 65536 1 1.5,0.5\n\
    0 1 opened 5\n\
    0 2 path 0 0 1 0 near 65536 1 1.5,0.5\n\
    0 2 opened 7\n\
    0 3 refused unknown-id\n\
    0 4 refused bad-shape\n";

/// The text of the second turn with its opened numbers.
const SECOND_PROFILE: &str = "turn 2 regions 1 edges 0 areas 1 relabelled 1\n\
    0 0 moved 1\n\
    0 1 removed 1\n\
    2 0 region 0 0 0 0\n\
    2 1 nowhere\n\
    2 2 path 0 0 2 0 goal 250000 2 1.5,0.5 2.5,0.5\n\
    2 2 opened 12\n";

/// The summary of no turn.
const NONE: &str =
    "summary turns 0 posts 0 added 0 removed 0 refused 0 goal 0 near 0 nowhere 0 cost 0 corners 0\n\
    last regions 0 edges 0 areas 0\n";

/// The summary of the two turns.
const BOTH: &str =
    "summary turns 2 posts 10 added 1 removed 1 refused 2 goal 2 near 1 nowhere 1 cost 381072 corners 4\n\
    last regions 1 edges 0 areas 1\n";

/// A path from the first cell along the first row, with these columns of its waypoints.
fn path(
    alloc: Global,
    end: u16,
    near: bool,
    cost: u64,
    columns: &[u16],
) -> Result<Reply, NoMemory> {
    let mut waypoints = Waypoints::new(alloc);
    for i in columns {
        waypoints.push(Cell::new(*i, 0))?;
    }
    Ok(Reply::Answer(Answer::Path(PathAnswer {
        start: Cell::new(0, 0),
        end: Cell::new(end, 0),
        near,
        cost: Cost(cost),
        waypoints,
    })))
}

/// The region of a cell of the first chunk row.
fn region(ci: u16, region: u16, area: u32) -> Reply {
    Reply::Answer(Answer::Region(RegionAnswer {
        ci,
        cj: 0,
        region,
        area,
    }))
}

/// A turn with as many regions and areas, and no region edges, that changed one pair of chunk and class.
fn turn(regions: u64, callers: Vec<Replies>) -> TurnReplies {
    TurnReplies {
        tallies: Tallies {
            regions,
            edges: 0,
            areas: regions,
        },
        relabelled: 1,
        replies: CallerReplies::from(callers),
    }
}

/// A turn in which one obstruction is added and four paths are asked for, two of them refused.
fn first_turn(alloc: Global) -> Result<TurnReplies, NoMemory> {
    let goal = path(alloc, 1, false, 65_536, &[1])?;
    let near = path(alloc, 1, true, 65_536, &[1])?;
    let replies = vec![in alloc;
        Reply::Edit(EditReply::Added(1)),
        goal,
        near,
        Reply::Answer(Answer::Refused(Refusal::UnknownId)),
        Reply::Edit(EditReply::Refused(Refusal::BadShape)),
    ]?;
    let callers = vec![in alloc; Replies::from(replies)]?;
    Ok(turn(2, callers))
}

/// A turn of three callers, the second without a post.
fn second_turn(alloc: Global) -> Result<TurnReplies, NoMemory> {
    let goal = path(alloc, 2, false, 250_000, &[1, 2])?;
    let third = vec![in alloc; region(0, 0, 0), Reply::Answer(Answer::Nowhere), goal]?;
    let first = vec![in alloc;
        Reply::Edit(EditReply::Moved(1)),
        Reply::Edit(EditReply::Removed(1)),
    ]?;
    let callers = vec![in alloc;
        Replies::from(first),
        Replies::new(alloc),
        Replies::from(third),
    ]?;
    Ok(turn(1, callers))
}

/// Whether a text was made and is this one.
fn is_text(made: Result<Bytes, NoMemory>, text: &str) -> bool {
    match made {
        Ok(made) => made.as_slice() == text.as_bytes(),
        Err(NoMemory) => false,
    }
}

/// The line of a reply to post 4 of caller 13.
fn line(alloc: Global, reply: &Reply) -> Result<Bytes, NoMemory> {
    let mut text = Bytes::new(alloc);
    write_reply(&mut text, 13, 4, reply)?;
    Ok(text)
}

/// Replies to edits, each with its line.
const EDITS: &[(EditReply, &str)] = &[
    (EditReply::Added(4_294_967_295), "13 4 added 4294967295\n"),
    (EditReply::Removed(0), "13 4 removed 0\n"),
    (EditReply::Moved(1), "13 4 moved 1\n"),
    (
        EditReply::Refused(Refusal::BadShape),
        "13 4 refused bad-shape\n",
    ),
    (
        EditReply::Refused(Refusal::DuplicateId),
        "13 4 refused duplicate-id\n",
    ),
    (
        EditReply::Refused(Refusal::StoreFull),
        "13 4 refused store-full\n",
    ),
];

/// Why requests are refused, each with the line of the answer.
const REFUSALS: &[(Refusal, &str)] = &[
    (Refusal::UnknownId, "13 4 refused unknown-id\n"),
    (Refusal::UnknownClass, "13 4 refused unknown-class\n"),
    (Refusal::StartOutside, "13 4 refused start-outside\n"),
    (Refusal::GoalOutside, "13 4 refused goal-outside\n"),
];

/// Whether this is the line of the reply.
fn is_line(alloc: Global, reply: &Reply, text: &str) -> bool {
    is_text(line(alloc, reply), text)
}

/// Whether this is the line of the answer.
fn is_answer_line(alloc: Global, answer: Answer, text: &str) -> bool {
    is_line(alloc, &Reply::Answer(answer), text)
}

#[test]
fn each_reply_has_its_line(rt: HostRuntime) {
    let alloc = rt.alloc();
    for &(reply, text) in EDITS {
        assert!(rt; is_line(alloc, &Reply::Edit(reply), text), "{text}");
    }
    for &(refusal, text) in REFUSALS {
        assert!(rt;
            is_answer_line(alloc, Answer::Refused(refusal), text),
            "{text}"
        );
    }
    assert!(rt; is_answer_line(alloc, Answer::Nowhere, "13 4 nowhere\n"));
    assert!(rt; is_line(alloc, &region(1, 1, 2), "13 4 region 1 0 1 2\n"));
}

/// The last column of a path, whether it ends near its goal, its cost and the columns of its waypoints, with its line.
type PathRow = (u16, bool, u64, &'static [u16], &'static str);

const PATHS: &[PathRow] = &[
    (
        92,
        true,
        6_029_312,
        &[92],
        "13 4 path 0 0 92 0 near 6029312 1 92.5,0.5\n",
    ),
    (
        2047,
        false,
        134_152_192,
        &[9, 2047],
        "13 4 path 0 0 2047 0 goal 134152192 2 9.5,0.5 2047.5,0.5\n",
    ),
    (0, false, 0, &[], "13 4 path 0 0 0 0 goal 0 0\n"),
];

/// Whether the path has its line. An error where there is no memory.
fn has_line(alloc: Global, (end, near, cost, columns, text): PathRow) -> Result<bool, NoMemory> {
    let reply = path(alloc, end, near, cost, columns)?;
    Ok(is_line(alloc, &reply, text))
}

#[test]
fn each_path_has_its_line(rt: HostRuntime) {
    for &row in PATHS {
        assert!(rt; has_line(rt.alloc(), row) == Ok(true), "{row:?}");
    }
}

/// Whether the text of a turn with its notes is this, behind what stands there before it.
fn is_pushed(
    alloc: Global,
    turn: u64,
    replies: &TurnReplies,
    notes: &[Note],
    text: &str,
) -> Result<bool, NoMemory> {
    let mut pushed = Bytes::new(alloc);
    pushed.extend(b"before")?;
    push_noted_text(alloc, &mut pushed, turn, replies, notes)?;
    Ok(pushed.as_slice().strip_prefix(b"before") == Some(text.as_bytes()))
}

/// Whether the texts of the first turn are those above.
fn is_first_written(alloc: Global) -> Result<bool, NoMemory> {
    let turn = first_turn(alloc)?;
    let notes = [Note::Opened(5), Note::Opened(7)];
    Ok(
        is_text(turn_text(alloc, 1, &turn), FIRST)
            && is_pushed(alloc, 1, &turn, &notes, FIRST_PROFILE)?,
    )
}

/// Whether the texts of the second turn are those above.
fn is_second_written(alloc: Global) -> Result<bool, NoMemory> {
    let turn = second_turn(alloc)?;
    let notes = [Note::Nothing, Note::Nothing, Note::Opened(12)];
    Ok(
        is_text(turn_text(alloc, 2, &turn), SECOND)
            && is_pushed(alloc, 2, &turn, &notes, SECOND_PROFILE)?,
    )
}

#[test]
fn turns_are_written_caller_by_caller(rt: HostRuntime) {
    assert!(rt; is_first_written(rt.alloc()) == Ok(true));
    assert!(rt; is_second_written(rt.alloc()) == Ok(true));
}

/// Whether the summary of the two turns is that above.
fn is_summed(alloc: Global) -> Result<bool, NoMemory> {
    let mut turns = AllReplies::new(alloc);
    turns.push(first_turn(alloc)?)?;
    turns.push(second_turn(alloc)?)?;
    Ok(is_text(summary_text(alloc, &turns), BOTH))
}

#[test]
fn a_summary_counts_all_turns_and_ends_with_the_last(rt: HostRuntime) {
    assert!(rt; is_summed(rt.alloc()) == Ok(true));
}

#[test]
fn a_summary_of_no_turn_is_of_zeros(rt: HostRuntime) {
    let none = AllReplies::new(rt.alloc());
    assert!(rt; is_text(summary_text(rt.alloc(), &none), NONE));
}
