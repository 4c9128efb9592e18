//! Matches that are opened from a script, go on from what stands, and are compared by digests.

use super::*;
use match_play::{DIGEST_PRIME, OpenedMatch, digest_of, open_script, snapshot, turn_digest};
use nav_types::Sequence;
use posts::empty_lists;

/// A match opened from a script, and a turn more, which is the second of that script.
fn opened(alloc: Global, script: &[&str]) -> Result<OpenedMatch, MatchFault> {
    let script = joined(alloc, script)?;
    open_script(alloc, script.as_slice())
}

/// The digest of bytes, as it is defined.
fn defined_digest(bytes: &[u8]) -> u64 {
    let mut digest = 0u128;
    for byte in bytes {
        digest = (digest * 256 + u128::from(*byte)) % u128::from(DIGEST_PRIME);
    }
    digest as u64
}

#[test]
fn digests_are_remainders(rt: HostRuntime) {
    let bytes = [255u8; 64];
    for count in 0..64usize {
        assert!(rt; digest_of(&bytes[..count]) == defined_digest(&bytes[..count]));
    }
    assert!(rt; digest_of(b"".as_slice()) == 0);
    assert!(rt; digest_of(b"\x01\x00".as_slice()) == 256);
    // these bytes are the prime
    assert!(rt; digest_of(b"\xff\xff\xff\xff\xff\xff\xff\xc5".as_slice()) == 0);
}

/// Whether a match keeps a journal, and is written as this script.
fn is_written_as(alloc: Global, game: &PostedMatch, script: &[u8]) -> Result<bool, MatchFault> {
    match game.script(alloc)? {
        Some(text) => Ok(text.as_slice() == script),
        None => Ok(false),
    }
}

/// Whether a script that is opened tells the digest of its last turn, and is written as it was.
fn is_opened(alloc: Global, script: &[&str], digest: u64) -> Result<bool, MatchFault> {
    let whole = joined(alloc, script)?;
    let OpenedMatch { game, told } = opened(alloc, script)?;
    let same = is_written_as(alloc, &game, whole.as_slice())?;
    match told {
        Some(told) => Ok(same && turn_digest(alloc, &told)? == digest),
        None => Ok(same && digest == 0),
    }
}

#[test]
fn a_script_opens_a_match(rt: HostRuntime) {
    let map = [SKIRMISH[0]];
    assert!(rt; is_opened(rt.alloc(), &map, 0) == Ok(true));
    assert!(rt; is_opened(rt.alloc(), FIRST, 0) == Ok(false));
    assert!(rt; has_digest(rt.alloc(), &SKIRMISH[..7], 0xf9ac_ccc9_9498_5fb6) == Ok(true));
    assert!(rt; has_digest(rt.alloc(), SKIRMISH, 0x9d97_5c6f_e012_e721) == Ok(true));
}

/// Whether the last turn of a script has a digest.
fn has_digest(alloc: Global, script: &[&str], digest: u64) -> Result<bool, MatchFault> {
    match opened(alloc, script)?.told {
        Some(told) => Ok(turn_digest(alloc, &told)? == digest),
        None => Ok(false),
    }
}

/// The line at which a script stops.
fn stop_of(alloc: Global, script: &[&str]) -> Result<u64, MatchFault> {
    match opened(alloc, script) {
        Ok(_) => Ok(0),
        Err(MatchFault::BadLine(number)) => Ok(number),
        Err(fault) => Err(fault),
    }
}

#[test]
fn a_bad_script_opens_none(rt: HostRuntime) {
    assert!(rt; stop_of(rt.alloc(), &[]) == Ok(1));
    assert!(rt; stop_of(rt.alloc(), &[MAP_LINE]) == Ok(0));
    assert!(rt; stop_of(rt.alloc(), &[MAP_LINE, "{\"end\":2}\n"]) == Ok(2));
    assert!(rt; stop_of(rt.alloc(), &[MAP_LINE, "{\"caller\":0,\"remove\":1}\n"]) == Ok(3));
}

/// Whether a match forgets how what stands came to stand, and its journal is then the snapshot, which opens it again.
fn forgets(alloc: Global) -> Result<bool, MatchFault> {
    let OpenedMatch { mut game, .. } = opened(alloc, SKIRMISH)?;
    let saved = snapshot(alloc, game.version())?;
    game.forget(alloc)?;
    let same = is_written_as(alloc, &game, saved.as_slice())?;
    let again = open_script(alloc, saved.as_slice())?;
    let stands = snapshot(alloc, again.game.version())?;
    Ok(same && game.turns() == 1 && stands.as_slice() == saved.as_slice())
}

/// Whether a match before its first turn has none when it forgets either.
fn forgets_nothing(alloc: Global) -> Result<bool, MatchFault> {
    let OpenedMatch { mut game, .. } = opened(alloc, &SKIRMISH[..2])?;
    game.forget(alloc)?;
    Ok(game.turns() == 0)
}

#[test]
fn a_match_forgets(rt: HostRuntime) {
    assert!(rt; forgets(rt.alloc()) == Ok(true));
    assert!(rt; forgets_nothing(rt.alloc()) == Ok(true));
}

/// Whether a turn without posts ends.
fn ends_a_turn(alloc: Global, game: &mut PostedMatch) -> Result<bool, MatchFault> {
    let lists = empty_lists(alloc, usize::from(game.version().map().callers()))?;
    match game.end_turn(alloc, Report::Answers, Sequence::from(lists)) {
        Ok(_) => Ok(true),
        Err(_) => Ok(false),
    }
}

/// Whether a match that keeps no journal has the turns and what stands of one that does, and no script; and whether it keeps
/// a journal again once it forgets.
fn keeps_none(alloc: Global) -> Result<bool, MatchFault> {
    let OpenedMatch { mut game, .. } = opened(alloc, SKIRMISH)?;
    let (turns, saved) = (game.turns(), snapshot(alloc, game.version())?);
    game.keep_no_journal();
    let stands = snapshot(alloc, game.version())?;
    let same = ends_a_turn(alloc, &mut game)?
        && game.turns() == turns + 1
        && stands.as_slice() == saved.as_slice();
    let none = game.journal().is_none() && game.script(alloc)?.is_none();
    game.forget(alloc)?;
    Ok(
        same && none
            && turns > 1
            && game.turns() == 1
            && is_written_as(alloc, &game, saved.as_slice())?,
    )
}

/// Whether a match that kept no journal before its first turn begins one without a turn.
fn begins_again(alloc: Global) -> Result<bool, MatchFault> {
    let map = joined(alloc, &[SKIRMISH[0]])?;
    let OpenedMatch { mut game, .. } = open_script(alloc, map.as_slice())?;
    game.keep_no_journal();
    game.forget(alloc)?;
    Ok(game.turns() == 0 && is_written_as(alloc, &game, map.as_slice())?)
}

#[test]
fn a_match_keeps_no_journal(rt: HostRuntime) {
    assert!(rt; keeps_none(rt.alloc()) == Ok(true));
    assert!(rt; begins_again(rt.alloc()) == Ok(true));
}
