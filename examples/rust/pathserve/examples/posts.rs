//! Plays a turn by posts, and looks at what stands from another thread.
use pathserve::{fixed, Cell, Class, Error, Goal, Outcome, PathEnd, Post, PostedMatch, Report, TextMatch};
use std::thread;

fn main() -> Result<(), Error> {
    let classes = [Class::new("infantry", fixed(0.5))];
    let mut game = PostedMatch::open(12, 8, 1, &classes, &[])?;
    let goal = Goal::Point { x: fixed(10.5), z: fixed(1.5) };
    let ask = goal.path(0, 0, fixed(1.5), fixed(1.5));
    let add = Post::AddUnit { caller: 0, id: 1, mask: 1, x: fixed(6.0), z: fixed(1.5), half: fixed(1.0) };
    game.post(&[add, ask])?;
    let turn = game.end_turn()?;
    for reply in &turn.replies {
        println!("{} {} {:?}", reply.caller, reply.post, reply.outcome);
    }
    let mut view = game.view()?;
    assert_eq!((view.standing_at(1), view.standing_at(2)), (Some(add), None));
    assert_eq!(view.size(), (12, 8));
    assert_eq!(view.nearest(0, fixed(1.5), fixed(1.5)), Some(Cell { i: 1, j: 1 }));
    assert_eq!(view.nearest(1, fixed(1.5), fixed(1.5)), None);
    assert_eq!((view.reachable(&ask), view.reachable(&add)), (Ok(PathEnd::AtGoal), Err(Error::BadValue)));
    assert_eq!(grid()?, [false, true, true, false]);
    assert_eq!(why_a_blank_line_is_bad()?, "the line must be one JSON value, and is blank");
    println!("by pathserve {}", pathserve::version());
    let found = thread::spawn(move || view.find(&ask)).join().expect("a thread")?;
    assert!(matches!(found.outcome, Outcome::AtGoal(_)) && found.outcome == turn.replies[1].outcome);
    Ok(())
}

fn why_a_blank_line_is_bad() -> Result<String, Error> {
    let mut game = TextMatch::open(Report::Replay)?;
    game.limit_line(1);
    assert_eq!(game.feed(b"{}\n"), Err(Error::PastLimit));
    assert_eq!(game.feed(b"\n"), Err(Error::BadLine));
    game.cause()
}

/// Which cells of a map of two rows are passable whose terrain is a grid of masks, and where one post at most may wait.
fn grid() -> Result<Vec<bool>, Error> {
    let mut game = PostedMatch::open_grid(2, 2, 1, &[Class::new("infantry", 0)], &[1, 0, 2, 3])?;
    let ask = Post::Region { caller: 0, class: 0, x: 0, z: 0 };
    game.limit_posts(1);
    game.post(&[ask])?;
    assert_eq!(game.post(&[ask]), Err(Error::PastLimit));
    let mut view = game.view()?;
    Ok((0..2).flat_map(|j| (0..2).map(move |i| (i, j))).map(|(i, j)| view.passable(0, i, j)).collect())
}
