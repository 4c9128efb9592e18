//! Plays a script by text and prints its answers: PATHSERVE_LIB_DIR=lib cargo run --example skirmish < skirmish.script
use pathserve::{Error, Report, TextMatch};
use std::io::{self, Read, Write};
use std::process::ExitCode;

fn play(script: &[u8], out: &mut impl Write) -> Result<(), Error> {
    let mut game = TextMatch::open(Report::Replay)?;
    for piece in script.chunks(4096) {
        let fed = game.feed(piece);
        out.write_all(&game.take()).expect("standard output");
        fed?;
    }
    let ended = game.finish();
    out.write_all(&game.take()).expect("standard output");
    ended
}

fn main() -> ExitCode {
    let mut script = Vec::new();
    io::stdin().read_to_end(&mut script).expect("standard input");
    match play(&script, &mut io::stdout().lock()) {
        Ok(()) => ExitCode::SUCCESS,
        Err(error) => {
            eprintln!("{error}");
            ExitCode::FAILURE
        }
    }
}
