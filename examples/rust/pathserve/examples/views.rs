//! Plays a script by text, and asks what stands for a path from another thread: cargo run --example views < skirmish.script
use pathserve::{fixed, Error, Goal, Outcome, Report, TextMatch};
use std::io::{self, Read};
use std::thread;

fn main() -> Result<(), Error> {
    let mut script = Vec::new();
    io::stdin().read_to_end(&mut script).expect("standard input");
    let mut game = TextMatch::open(Report::Replay)?;
    game.feed(&script)?;
    let mut view = game.view()?;
    let goal = Goal::Point { x: fixed(10.5), z: fixed(1.5) };
    let ask = goal.path(0, 0, fixed(1.5), fixed(1.5));
    let mut other = view.again()?;
    let found = thread::spawn(move || other.find(&ask)).join().expect("a thread")?;
    assert_eq!(found, view.find(&ask)?);
    if let Outcome::AtGoal(path) | Outcome::NearGoal(path) = found.outcome {
        println!("cost {}, by {} waypoints", path.cost, path.waypoints.len());
    }
    Ok(())
}
