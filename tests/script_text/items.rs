//! Scripts that are read item by item: where a read fails, and what waits behind an item.

use super::pushing::{FIRST, SKIRMISH};
use super::read_script;
use io_edges::MemorySource;
use nav_types::{Bytes, NoMemory};
use script_text::{ScriptFault, ScriptItem, ScriptReader};
use std::alloc::Global;
use std::test::*;

/// The lines one behind another.
fn script_of(alloc: Global, lines: &[&str]) -> Result<Bytes, NoMemory> {
    let mut script = Bytes::new(alloc);
    for line in lines {
        script.extend(line.as_bytes())?;
    }
    Ok(script)
}

#[test]
fn items_end_at_a_read_that_fails(rt: HostRuntime) {
    let alloc = rt.alloc();
    let script = script_of(alloc, SKIRMISH).expect(&rt, "memory");
    // The script has two turns, and the second is read at the end of its last piece.
    let outcome = read_script(alloc, script.as_slice(), 4096, &[2]).expect(&rt, "memory");
    assert!(rt; outcome.turns.len() == 2 && outcome.fault == Some(ScriptFault::ReadFault));
    let outcome = read_script(alloc, script.as_slice(), 7, &[3]).expect(&rt, "memory");
    assert!(rt; outcome.map.is_none() && outcome.fault == Some(ScriptFault::ReadFault));
}

#[test]
fn the_rest_of_a_read_waits_for_the_next_item(rt: HostRuntime) {
    let alloc = rt.alloc();
    let script = script_of(alloc, FIRST).expect(&rt, "memory");
    let mut source = MemorySource::new(alloc, script.as_slice(), 4096, &[2]).expect(&rt, "memory");
    let mut reader = ScriptReader::new(alloc).expect(&rt, "memory");
    assert!(rt;
        matches!(
            reader.next_item(alloc, &mut source),
            Ok(Some(ScriptItem::Map(_)))
        )
    );
    assert!(rt; reader.held() == script.len() - FIRST[0].len());
    assert!(rt;
        matches!(
            reader.next_item(alloc, &mut source),
            Ok(Some(ScriptItem::Turn(_)))
        )
    );
    assert!(rt; reader.held() == 0 && !reader.failed());
}
