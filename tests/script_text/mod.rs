//! Lines and their forms, scripts that are read, and the causes of bad lines.

use io_edges::MemorySource;
use nav_types::{Bytes, NoMemory};
use posts::{BaseRects, Journal, MapSpec};
use script_text::{
    Cause, ScriptFault, ScriptItem, ScriptReader, have_lines, write_journal, write_map,
};
use std::alloc::Global;

mod causes;
mod items;
mod lines;
mod pushing;
mod reading;

/// A map line of version 1 with 2 callers and a map of 5 by 4 navcells.
const MAP_1: &str =
    "{\"version\":1,\"size\":[5,4],\"callers\":2,\"classes\":[{\"name\":\"a\",\"clearance\":\"0\"}]}\n";

/// The same of version 2.
const MAP_2: &str =
    "{\"version\":2,\"size\":[5,4],\"callers\":2,\"classes\":[{\"name\":\"a\",\"clearance\":\"0\"}]}\n";

/// The same of version 3.
const MAP_3: &str =
    "{\"version\":3,\"size\":[5,4],\"callers\":2,\"classes\":[{\"name\":\"a\",\"clearance\":\"0\"}]}\n";

/// What a script gives: its map, at most nine turns, the fault that ends it, and the cause where that is a bad line.
#[derive(Drop)]
struct Outcome {
    map: Option<MapSpec>,
    turns: Journal,
    fault: Option<ScriptFault>,
    cause: Option<Cause>,
}

/// How many turns a script gives, and the fault that ends it.
type Ending = (usize, Option<ScriptFault>);

/// Reads a script, thirty items at most, where a read takes so many bytes at most, and the reads of these numbers fail.
fn read_script(
    alloc: Global,
    script: &[u8],
    piece: usize,
    fails: &[u64],
) -> Result<Outcome, NoMemory> {
    let mut source = MemorySource::new(alloc, script, piece.max(1), fails)?;
    let mut reader = ScriptReader::new(alloc)?;
    let mut outcome = Outcome {
        map: None,
        turns: Journal::new(alloc),
        fault: None,
        cause: None,
    };
    let mut base = BaseRects::new(alloc);
    for _ in 0..30u32 {
        match reader.next_item(alloc, &mut source) {
            Ok(Some(item)) => keep(item, &mut outcome, &mut base)?,
            Ok(None) => break,
            Err(fault) => {
                end_by(alloc, &reader, fault, &mut outcome);
                break;
            }
        }
    }
    add_base(alloc, &mut outcome, &base)?;
    Ok(outcome)
}

/// Keeps what a line gave.
fn keep(item: ScriptItem, outcome: &mut Outcome, base: &mut BaseRects) -> Result<(), NoMemory> {
    match item {
        ScriptItem::Map(map) => outcome.map = Some(map),
        ScriptItem::Base(rects) => base.extend(rects.as_slice())?,
        ScriptItem::Turn(turn) => outcome.turns.push(turn)?,
    }
    Ok(())
}

/// Gives the map, where there is one, these base rectangles.
fn add_base(alloc: Global, outcome: &mut Outcome, base: &BaseRects) -> Result<(), NoMemory> {
    match &mut outcome.map {
        Some(map) => map.add_base(base.as_slice()),
        None => Ok(()),
    }
}

/// Ends an outcome by a fault that the reader met.
fn end_by(alloc: Global, reader: &ScriptReader, fault: ScriptFault, outcome: &mut Outcome) {
    outcome.fault = Some(fault);
    match fault {
        ScriptFault::BadLine(_) => outcome.cause = reader.cause(alloc).ok(),
        _ => {}
    }
}

/// Reads a script of lines behind a map line.
fn read_behind(alloc: Global, map: &str, lines: &str) -> Result<Outcome, NoMemory> {
    let mut script = Bytes::new(alloc);
    script.extend(map.as_bytes())?;
    script.extend(lines.as_bytes())?;
    read_script(alloc, script.as_slice(), 7, &[])
}

/// The canonical script of what was read, where there is a map.
fn written(alloc: Global, outcome: &Outcome) -> Option<Bytes> {
    let map = outcome.map.as_ref()?;
    let mut script = write_map(alloc, map).ok()?;
    let mut number: u64 = 0;
    for turn in outcome.turns.as_slice() {
        if !have_lines(map, turn) {
            return None;
        }
        number = number.wrapping_add(1);
        let mut text = write_journal(alloc, map, number, turn).ok()?;
        script.append(&mut text).ok()?;
    }
    Some(script)
}
