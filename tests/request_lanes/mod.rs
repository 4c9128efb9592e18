use request_lanes::{Ended, LaneIn, LaneOut, lane};
use std::sync::Wait;
use std::test::*;
use std::thread;

const POSTED: u32 = 100_000;

const TAKEN_BESIDE: u64 = 60_000;

/// What may go to another thread.
fn sent<T: Send>(value: T) -> T {
    value
}

/// The ends of a lane of any items that may go to other threads.
fn ends_cross<T: Send + Drop>(lane_in: LaneIn<T>, lane_out: LaneOut<T>) -> (LaneIn<T>, LaneOut<T>) {
    (sent(lane_in), sent(lane_out))
}

fn post_all(rt: &impl Wait, mut lane_in: LaneIn<u32>) -> Ended<u32> {
    for number in 0..POSTED {
        // A number that was refused is missing below.
        let _ = lane_in.post(rt, number);
    }
    lane_in.end()
}

// Takes numbers beside the posting, and tells whether each is its place.
fn take_some(rt: &impl Wait, mut lane_out: LaneOut<u32>) -> (LaneOut<u32>, bool) {
    let mut taken = 0;
    let mut in_place = true;
    for _ in rt.forever() {
        if taken == TAKEN_BESIDE {
            break;
        }
        match lane_out.take(rt) {
            Some((place, number)) => {
                in_place &= u64::from(number) == place;
                taken = place.saturating_add(1);
            }
            None => thread::yield_now(),
        }
    }
    (lane_out, in_place)
}

#[test]
fn what_is_taken_is_what_was_posted(rt: HostRuntime) -> Result<(), Fail> {
    let (lane_in, lane_out) = lane::<u32>(&rt, rt.alloc())?;
    let (lane_in, lane_out) = ends_cross(lane_in, lane_out);
    let (ended, (lane_out, in_place)) = thread::join(
        &rt,
        move || -> Ended<u32> { post_all(&rt, lane_in) },
        move || -> (LaneOut<u32>, bool) { take_some(&rt, lane_out) },
    );
    assert!(rt; in_place);
    let mut whole = lane_out.finish(&rt, ended);
    let mut taken = 0;
    for _ in rt.forever() {
        let Some((place, number)) = whole.take(&rt) else {
            break;
        };
        assert!(rt; u64::from(number) == place, "{number} at {place}");
        taken = place.saturating_add(1);
    }
    assert!(rt; taken == u64::from(POSTED));
    Ok(())
}

/// What a lane tells of each post is its place, from 0 on, and it takes no post for another.
#[test]
fn posts_are_told_their_places(rt: HostRuntime) -> Result<(), Fail> {
    let (lane_in, lane_out) = lane::<u32>(&rt, rt.alloc())?;
    let (mut lane_in, mut lane_out) = (lane_in, lane_out);
    for (place, number) in [(0, 7), (1, 7), (2, 5)] {
        assert!(rt; lane_in.post(&rt, number).ok() == Some(place));
    }
    assert!(rt; lane_out.take(&rt) == Some((0, 7)));
    let mut whole = lane_out.finish(&rt, lane_in.end());
    assert!(rt; whole.take(&rt) == Some((1, 7)));
    assert!(rt; whole.take(&rt) == Some((2, 5)));
    assert!(rt; whole.take(&rt) == None);
    Ok(())
}
