//! A turn's answers are written before more is read, so that a client may wait for them.

use super::scripts::SCRIPTS;
use super::words_of;
use io_edges::{Failed, OpenGate, Sink, Source, WriteRefusal};
use nav_types::{Bytes, NoMemory};
use pathserve::{Status, run};
use std::alloc::Global;
use std::cell::Cell;
use std::sync::Wait;
use std::thread::Threads;

/// A client that sends a script line by line. Behind an end line it sends nothing until it has the answers to the turn:
/// whoever reads on before that meets the end of the input.
#[derive(Drop)]
struct Client<'a> {
    left: &'static [u8],
    ended: u64,
    answered: &'a Cell<u64>,
}

impl Source for Client<'_> {
    ghost use Rattle.std.specs.Prelude.{None};

    ghost left = { λ s. None };

    ghost faults = { λ s. 0 };

    fn read(&mut self, buf: &mut [u8]) -> Result<usize, Failed> {
        if self.ended > self.answered.get() {
            return Ok(0);
        }
        let end = match self.left.iter().position(|byte| *byte == b'\n') {
            Some(newline) => newline + 1,
            None => self.left.len(),
        };
        let (line, left) = self.left.split_at(end.min(buf.len()));
        buf[..line.len()].copy_from_slice(line);
        if line.starts_with(b"{\"end\":") {
            self.ended = self.ended.saturating_add(1);
        }
        self.left = left;
        Ok(line.len())
    }
}

/// What the client has of the answers. It counts the turns that are answered.
#[derive(Drop)]
struct Answers<'a> {
    text: Bytes,
    answered: &'a Cell<u64>,
}

impl Sink for Answers<'_> {
    ghost use Rattle.std.specs.Prelude.{None};

    ghost kept = { λ s. None };

    ghost faults = { λ s. 0 };

    fn write(&mut self, piece: &[u8]) -> Result<usize, WriteRefusal> {
        match self.text.extend(piece) {
            Ok(()) => {}
            Err(NoMemory) => return Err(WriteRefusal::NoMemory),
        }
        if piece.starts_with(b"turn ") {
            self.answered.set(self.answered.get().saturating_add(1));
        }
        Ok(piece.len())
    }
}

/// Whether a client that waits for the answers to each turn gets all of them. The count of answered turns is 0.
fn serves_client<R: Threads + Wait + Sync>(
    rt: &R,
    alloc: Global,
    answered: &Cell<u64>,
    script: &'static str,
    status: Status,
    answers: &str,
) -> Result<bool, NoMemory> {
    let words = words_of(alloc, &["replay"])?;
    let mut source = Client {
        left: script.as_bytes(),
        ended: 0,
        answered,
    };
    let mut sink = Answers {
        text: Bytes::new(alloc),
        answered,
    };
    let mut why = None;
    let ended = run(
        rt,
        alloc,
        &words,
        &mut source,
        &mut sink,
        &OpenGate,
        &mut why,
    );
    Ok(ended == status && sink.text.as_slice() == answers.as_bytes())
}

#[test]
fn a_turn_is_answered_before_more_is_read(rt: HostRuntime) {
    for (script, status, answers) in SCRIPTS {
        assert!(rt;
            serves_client(&rt, rt.alloc(), &Cell::new(0), script, status, answers) == Ok(true),
            "{script}"
        );
    }
}
