//! Matches tell what the examples are answered, however their bytes are cut.

use answer_text::turn_text;
use io_edges::MemorySource;
use match_play::{EndedTurn, Match, MatchFault, PostedMatch, Report};
use nav_types::{Bytes, NoMemory};
use posts::{Journal, TurnPosts};
use script_text::{Cause, Key, ScriptFault, ScriptItem, ScriptReader, Wanted, have_lines};
use std::alloc::Global;
use std::test::*;

mod example;
mod examples;
mod saved;

use examples::{FIRST, FIRST_ANSWERS, SKIRMISH, SKIRMISH_ANSWERS};

/// A map of 3 by 3 cells.
const MAP_LINE: &str =
    "{\"version\":1,\"size\":[3,3],\"callers\":1,\"classes\":[{\"name\":\"default\",\"clearance\":\"0\"}]}\n";

/// Parts of a text, one after another.
fn joined(alloc: Global, parts: &[&str]) -> Result<Bytes, NoMemory> {
    let mut bytes = Bytes::new(alloc);
    for part in parts {
        bytes.extend(part.as_bytes())?;
    }
    Ok(bytes)
}

/// Feeds a match with a script by pieces of so many bytes.
fn feed_by(alloc: Global, game: &mut Match, script: &[u8], size: usize) -> Result<(), MatchFault> {
    for piece in script.chunks(size) {
        let mut left = piece;
        game.feed(alloc, &mut left)?;
    }
    Ok(())
}

/// Whether a script that is fed by pieces of so many bytes ends so, and is answered so.
fn is_answered(
    alloc: Global,
    script: &[&str],
    size: usize,
    ends: Result<(), MatchFault>,
    answers: &[&str],
) -> Result<bool, NoMemory> {
    let script = joined(alloc, script)?;
    let answers = joined(alloc, answers)?;
    let mut game = Match::open(alloc, Report::Answers);
    let ended = feed_by(alloc, &mut game, script.as_slice(), size);
    Ok(ended == ends && game.waiting() == answers.as_slice())
}

#[test]
fn examples_are_answered(rt: HostRuntime) {
    for size in [1, 7, 4096] {
        assert!(rt; is_answered(rt.alloc(), FIRST, size, Ok(()), FIRST_ANSWERS) == Ok(true));
        assert!(rt; is_answered(rt.alloc(), SKIRMISH, size, Ok(()), SKIRMISH_ANSWERS) == Ok(true));
    }
}

#[test]
fn a_bad_line_stops_a_match(rt: HostRuntime) {
    let script = [MAP_LINE, "{\"end\":2}\n", "{\"end\":1}\n"];
    for size in [1, 7, 4096] {
        let ends = Err(MatchFault::BadLine(2));
        assert!(rt; is_answered(rt.alloc(), &script, size, ends, &["bad line 2\n"]) == Ok(true));
    }
}

/// Whether a match has no cause before its first bad line, and that line's behind it.
fn has_cause(alloc: Global) -> Result<bool, NoMemory> {
    let script = joined(alloc, &[MAP_LINE, "{\"end\":2}\n", "{\"end\":1\n"])?;
    let mut game = Match::open(alloc, Report::Answers);
    let none = game.cause(alloc)?.is_none();
    let mut bytes = script.as_slice();
    let stopped = game.feed(alloc, &mut bytes) == Err(MatchFault::BadLine(2));
    let cause = Cause::WrongValue {
        key: Key::End,
        wanted: Wanted::Turn { number: 1 },
    };
    Ok(none && stopped && game.cause(alloc)? == Some(cause))
}

#[test]
fn a_bad_line_has_its_cause(rt: HostRuntime) {
    assert!(rt; has_cause(rt.alloc()) == Ok(true));
}

/// Whether a match that has stopped at a line says so again, takes what is fed, and tells nothing more.
fn says_so_again(alloc: Global) -> Result<bool, NoMemory> {
    let script = joined(alloc, &[MAP_LINE, "{\"end\":2}\n"])?;
    let stop = Err(MatchFault::BadLine(2));
    let mut game = Match::open(alloc, Report::Answers);
    let mut bytes = script.as_slice();
    let met = game.feed(alloc, &mut bytes) == stop;
    let told = game.take(alloc).as_slice() == b"bad line 2\n".as_slice();
    let mut more = script.as_slice();
    let again = game.feed(alloc, &mut more) == stop && more.is_empty();
    let ended = game.finish(alloc) == stop;
    Ok(met && told && again && ended && game.waiting().is_empty())
}

#[test]
fn a_match_that_has_stopped_says_so_again(rt: HostRuntime) {
    assert!(rt; says_so_again(rt.alloc()) == Ok(true));
}

/// Whether a script without its last newline ends so, and is answered so; and whether nothing is taken behind its end.
fn is_ended(
    alloc: Global,
    script: &[&str],
    ends: Result<(), MatchFault>,
    answers: &[&str],
) -> Result<bool, NoMemory> {
    let script = joined(alloc, script)?;
    let answers = joined(alloc, answers)?;
    let mut game = Match::open(alloc, Report::Answers);
    let fed = match script.as_slice().split_last() {
        Some((_, whole)) => feed_by(alloc, &mut game, whole, 7),
        None => Ok(()),
    };
    let ended = game.finish(alloc);
    let mut more = script.as_slice();
    let behind = game.feed(alloc, &mut more);
    let left = more == script.as_slice();
    let told = game.waiting() == answers.as_slice();
    Ok(fed == Ok(()) && ended == ends && behind == Err(MatchFault::Ended) && left && told)
}

#[test]
fn a_script_may_end_without_a_newline(rt: HostRuntime) {
    assert!(rt; is_ended(rt.alloc(), FIRST, Ok(()), FIRST_ANSWERS) == Ok(true));
    assert!(rt; is_ended(rt.alloc(), &[MAP_LINE], Ok(()), &[]) == Ok(true));
    let begun = [MAP_LINE, "{\"caller\":0,\"remove\":1}\n"];
    let ends = Err(MatchFault::BadLine(3));
    assert!(rt; is_ended(rt.alloc(), &begun, ends, &["bad line 3\n"]) == Ok(true));
}

/// Ends a turn in a match by posts, and gives its text.
fn ended(
    alloc: Global,
    game: &mut PostedMatch,
    turn: u64,
    posts: TurnPosts,
) -> Result<Bytes, ScriptFault> {
    if !have_lines(game.version().map(), &posts) {
        return Err(ScriptFault::ReadFault);
    }
    match game.end_turn(alloc, Report::Answers, posts) {
        Ok(EndedTurn { replies, .. }) => Ok(turn_text(alloc, turn, &replies)?),
        Err(_) => Err(ScriptFault::NoMemory),
    }
}

/// Keeps the posts of a turn.
fn keep(turns: &mut Journal, posts: TurnPosts) -> Result<(), NoMemory> {
    turns.push(posts)?;
    Ok(())
}

/// The text of a match whose turns are the posts of a script, nine at most, and the match as a script.
fn played(alloc: Global, script: &[&str]) -> Result<(Bytes, Bytes), ScriptFault> {
    let script = joined(alloc, script)?;
    let mut source = MemorySource::new(alloc, script.as_slice(), 4096, &[])?;
    let mut reader = ScriptReader::new(alloc)?;
    let Some(ScriptItem::Map(mut map)) = reader.next_item(alloc, &mut source)? else {
        return Err(ScriptFault::ReadFault);
    };
    let mut turns = Journal::new(alloc);
    for _ in 0..9u32 {
        match reader.next_item(alloc, &mut source)? {
            Some(ScriptItem::Base(rects)) => map.add_base(rects.as_slice())?,
            Some(ScriptItem::Turn(posts)) => keep(&mut turns, posts)?,
            Some(ScriptItem::Map(_)) => return Err(ScriptFault::ReadFault),
            None => break,
        }
    }
    let mut game = PostedMatch::open(alloc, &map)?;
    let mut text = Bytes::new(alloc);
    for (before, posts) in turns.into_items().into_iter().enumerate() {
        let told = ended(alloc, &mut game, before as u64 + 1, posts)?;
        text.extend(told.as_slice())?;
    }
    match game.script(alloc)? {
        Some(again) => Ok((text, again)),
        None => Err(ScriptFault::ReadFault),
    }
}

/// Whether a match by posts tells the same, and its script is answered alike by a match that is fed.
fn is_played(alloc: Global, script: &[&str], answers: &[&str]) -> Result<bool, ScriptFault> {
    let (text, again) = played(alloc, script)?;
    let answers = joined(alloc, answers)?;
    let mut game = Match::open(alloc, Report::Answers);
    let ended = feed_by(alloc, &mut game, again.as_slice(), 7);
    let same = text.as_slice() == answers.as_slice();
    Ok(same && ended == Ok(()) && game.take(alloc).as_slice() == answers.as_slice())
}

#[test]
fn posts_are_answered_as_their_script(rt: HostRuntime) {
    assert!(rt; is_played(rt.alloc(), FIRST, FIRST_ANSWERS) == Ok(true));
    assert!(rt; is_played(rt.alloc(), SKIRMISH, SKIRMISH_ANSWERS) == Ok(true));
}

/// How many turns stand in a view: whether a match has one before its map, and behind it.
fn has_views(alloc: Global) -> Result<bool, NoMemory> {
    let map = joined(alloc, &[MAP_LINE])?;
    let mut game = Match::open(alloc, Report::Answers);
    let before = game.view(alloc)?.is_none();
    let ended = feed_by(alloc, &mut game, map.as_slice(), 3);
    let behind = game.view(alloc)?.is_some();
    Ok(before && ended == Ok(()) && behind)
}

#[test]
fn a_view_comes_with_the_map(rt: HostRuntime) {
    assert!(rt; has_views(rt.alloc()) == Ok(true));
}
