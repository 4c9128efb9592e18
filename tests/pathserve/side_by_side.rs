//! Workers of a turn that wait for each other.

use super::run_over;
use io_edges::Gate;
use pathserve::Status;
use std::sync::atomic::{AtomicBool, AtomicU64, Ordering};
use std::test::*;
use std::thread;

/// A turn with four paths of unlike ends, each long enough that a turn of four is shared.
pub(crate) const FOUR_PATHS: &str =
    "{\"version\":1,\"size\":[2048,1],\"callers\":1,\"classes\":[{\"name\":\"default\",\"clearance\":\"0\"}]}\n\
{\"caller\":0,\"path\":\"default\",\"from\":[\"0.5\",\"0.5\"],\"goal\":{\"point\":[\"2047.5\",\"0.5\"]}}\n\
{\"caller\":0,\"path\":\"default\",\"from\":[\"300.5\",\"0.5\"],\"goal\":{\"point\":[\"2047.5\",\"0.5\"]}}\n\
{\"caller\":0,\"path\":\"default\",\"from\":[\"100.5\",\"0.5\"],\"goal\":{\"point\":[\"2047.5\",\"0.5\"]}}\n\
{\"caller\":0,\"path\":\"default\",\"from\":[\"200.5\",\"0.5\"],\"goal\":{\"point\":[\"2047.5\",\"0.5\"]}}\n\
{\"end\":1}\n";

/// The answers to it.
pub(crate) const FOUR_ANSWERS: &str = "turn 1 regions 22 edges 21 areas 1 relabelled 0\n\
0 0 path 0 0 2047 0 goal 134152192 1 2047.5,0.5\n\
0 1 path 300 0 2047 0 goal 114491392 1 2047.5,0.5\n\
0 2 path 100 0 2047 0 goal 127598592 1 2047.5,0.5\n\
0 3 path 200 0 2047 0 goal 121044992 1 2047.5,0.5\n";

/// Counts passes, and holds the first one until three others have come.
#[derive(Drop)]
struct HoldingGate {
    passes: AtomicU64,
    gave_up: AtomicBool,
}

impl Gate for HoldingGate {
    fn pass(&self, _job: u64) {
        if self.passes.fetch_add(1, Ordering::SeqCst) > 0 {
            return;
        }
        for _ in 0..2_000_000_000u64 {
            if self.passes.load(Ordering::SeqCst) > 3 {
                return;
            }
            thread::yield_now();
        }
        self.gave_up.store(true, Ordering::SeqCst);
    }

    fn staged(&self, _posts: u64) {}

    fn begun(&self, _caller: u8) {}
}

#[test]
fn two_workers_answer_a_turn_beside_each_other(rt: HostRuntime) {
    let gate = HoldingGate {
        passes: AtomicU64::new(0),
        gave_up: AtomicBool::new(false),
    };
    let words = ["replay", "--workers", "2"];
    let bytes = FOUR_PATHS.as_bytes();
    let ran = run_over(&rt, rt.alloc(), &words, bytes, &[], &[], &gate).expect(&rt, "memory");
    assert!(rt; ran.status == Status::Done);
    assert!(rt; ran.sink.kept() == FOUR_ANSWERS.as_bytes());
    assert!(rt; gate.passes.load(Ordering::SeqCst) == 4);
    assert!(rt; !gate.gave_up.load(Ordering::SeqCst));
}
