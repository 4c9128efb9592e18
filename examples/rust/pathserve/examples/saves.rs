//! Opens a match from a script, and again from what stands then: cargo run --example saves < skirmish.script
use pathserve::{cause_of, fixed, Error, Goal, Post, PostedMatch};
use std::io::{self, Read};

fn main() -> Result<(), Error> {
    let mut script = Vec::new();
    io::stdin().read_to_end(&mut script).expect("standard input");
    let mut game = PostedMatch::of_script(&script)?;
    println!("digest {:016x}", game.digest()?);
    let saved = game.view()?.snapshot()?;
    let mut late = PostedMatch::of_script(&saved)?;
    assert_eq!(game.view()?.digest()?, late.view()?.digest()?);
    game.forget()?;
    assert_eq!(game.journal()?, saved);
    let goal = Goal::Point { x: fixed(10.5), z: fixed(1.5) };
    let ask = Post::Path { caller: 0, class: 0, x: fixed(1.5), z: fixed(1.5), goal };
    for its in [&mut game, &mut late] {
        its.post(&[ask.clone()])?;
        println!("turn {}, digest {:016x}", its.end_turn()?.turn, its.digest()?);
    }
    assert_eq!(PostedMatch::of_script(b"{}").err(), Some(Error::BadScript { line: 1 }));
    let (line, cause) = cause_of(b"{} // once")?.expect("a bad line");
    assert_eq!((line, cause.starts_with("byte 4: JSON has no comments")), (1, true));
    assert_eq!(cause_of(&saved)?, None);
    Ok(())
}
