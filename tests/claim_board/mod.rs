use claim_board::{Claims, Drawn, Seat};
use std::alloc::{AllocError, Global};
use std::test::Fail;
use std::thread::{Threads, join};

const JOBS: u64 = 100_000;

// Draws jobs until the seat has ended.
fn draw_all(
    alloc: Global,
    claims: &Claims,
    mut seat: Seat,
) -> (Seat, Result<Vec<u64>, AllocError>) {
    let mut taken = Vec::new(alloc);
    loop {
        match claims.claim(seat) {
            Drawn::Job(job, next) => {
                seat = next;
                if taken.push(job).is_err() {
                    return (seat, Err(AllocError));
                }
            }
            Drawn::Ended(next) => return (next, Ok(taken)),
        }
    }
}

fn both(
    first: Result<Vec<u64>, AllocError>,
    second: Result<Vec<u64>, AllocError>,
) -> Result<Vec<u64>, AllocError> {
    let mut all = first?;
    all.extend_from_slice(second?.as_slice())?;
    Ok(all)
}

// Halves the seat until each thread has one.
fn draw_by<R: Threads + Sync>(
    rt: &R,
    alloc: Global,
    claims: &Claims,
    seat: Seat,
    threads: u64,
) -> (Seat, Result<Vec<u64>, AllocError>) {
    if threads == 1 {
        return draw_all(alloc, claims, seat);
    }
    let half = threads / 2;
    let (a, b) = claims.split(seat);
    let ((a, first), (b, second)) = join(
        rt,
        || -> (Seat, Result<Vec<u64>, AllocError>) {
            draw_by(rt, alloc, claims, a, threads - half)
        },
        || -> (Seat, Result<Vec<u64>, AllocError>) { draw_by(rt, alloc, claims, b, half) },
    );
    (claims.join(a, b), both(first, second))
}

#[test]
fn eight_threads_draw_each_job_once(rt: HostRuntime) -> Result<(), Fail> {
    let (claims, seat) = Claims::start(rt.alloc(), JOBS)?;
    let (seat, taken) = draw_by(&rt, rt.alloc(), &claims, seat, 8);
    let mut taken = taken?;
    let _drawings = claims.close(seat);
    taken.sort()?;
    assert!(rt; taken.len() as u64 == JOBS);
    for (place, job) in taken.iter().enumerate() {
        assert!(rt; *job == place as u64, "{job} at {place}");
    }
    Ok(())
}
