//! Matches and views of libpathserve as owners: what `pathserve.h` asks of its caller holds by their types.
//!
//! A [`TextMatch`], a [`PostedMatch`], a [`View`] and a [`Finder`] are neither copied nor shared, each call borrows them for
//! itself, they may move to another thread, and dropping one frees what it has.
//!
//! ```no_run
//! let mut game = pathserve::TextMatch::open(pathserve::Report::Replay)?;
//! game.feed(&std::fs::read("skirmish.script").unwrap())?;
//! print!("{}", String::from_utf8_lossy(&game.take()));
//! # Ok::<(), pathserve::Error>(())
//! ```

mod finders;
mod matches;
mod posts;
mod views;

pub use finders::Finder;
pub use matches::{cause_of, PostFault, PostedMatch, Report, TextMatch, Turn};
pub use pathserve_sys::{Cell, Rect};
pub use posts::{fixed, Class, Goal, Outcome, Path, Post, Refusal, Reply, NAVCELL};
pub use views::{PathEnd, View};

use pathserve_sys as sys;

/// Why a call did not do what was asked. After each of them but the first two the match, the view or the finder is as it was.
#[derive(Clone, Debug, PartialEq, Eq)]
pub enum Error {
    /// A line of the script is not in the grammar. The match has stopped, and its text ends with the line's number.
    BadLine,
    /// A line or the script is past its limit. The match has stopped.
    TooLong,
    /// The script opens no match: this line of it is not in the grammar in its place, and [`cause_of`] says why; or it is past
    /// its limit.
    BadScript { line: u64 },
    /// There was no memory; so many of the bytes that were fed were taken.
    OutOfMemory { taken: usize },
    /// The script has been finished.
    Ended,
    /// The map line has not come.
    NoMap,
    /// A value is no such kind, number or size.
    BadValue,
    /// More posts, or more bytes of a line, than the limit that was set.
    PastLimit,
    /// The match keeps no journal.
    NoJournal,
    /// The library that was linked is of another version.
    OtherVersion,
}

impl std::fmt::Display for Error {
    fn fmt(&self, out: &mut std::fmt::Formatter<'_>) -> std::fmt::Result {
        match self {
            Error::BadLine => write!(out, "a line is bad"),
            Error::TooLong => write!(out, "a line or the script is too long"),
            Error::BadScript { line } => write!(out, "line {line} of the script is bad"),
            Error::OutOfMemory { .. } => write!(out, "out of memory"),
            Error::Ended => write!(out, "the script has been finished"),
            Error::NoMap => write!(out, "the map line has not come"),
            Error::BadValue => write!(out, "a value is past its limits"),
            Error::PastLimit => write!(out, "more than the limit that was set"),
            Error::NoJournal => write!(out, "the match keeps no journal"),
            Error::OtherVersion => write!(out, "libpathserve is of another version"),
        }
    }
}

impl std::error::Error for Error {}

fn must(status: u32) -> Result<(), Error> {
    match status {
        sys::DONE => Ok(()),
        sys::BAD_LINE => Err(Error::BadLine),
        sys::TOO_LONG => Err(Error::TooLong),
        sys::NO_MEMORY => Err(Error::OutOfMemory { taken: 0 }),
        sys::ENDED => Err(Error::Ended),
        sys::NO_MAP => Err(Error::NoMap),
        sys::BAD_VALUE => Err(Error::BadValue),
        sys::PAST_LIMIT => Err(Error::PastLimit),
        sys::NO_JOURNAL => Err(Error::NoJournal),
        other => unreachable!("a handle that an owner has opened is answered {other}"),
    }
}

/// The version of the library that was linked.
pub fn version() -> String {
    let mut text = [0; sys::TEXT];
    // SAFETY: a buffer with its length.
    let count = unsafe { sys::pathserve_version_text(text.as_mut_ptr(), text.len()) };
    String::from_utf8_lossy(&text[..count]).into_owned()
}

/// The bytes that a call writes into a buffer, of which it tells the size where it is too small.
fn written(mut write: impl FnMut(&mut [u8], &mut usize) -> u32) -> Result<Vec<u8>, Error> {
    let mut text = Vec::new();
    loop {
        let mut whole = 0;
        match write(&mut text, &mut whole) {
            sys::SMALL => text.resize(whole, 0),
            status => return must(status).map(|()| text),
        }
    }
}

fn same_version() -> Result<(), Error> {
    // SAFETY: these take nothing.
    let (version, answers) = unsafe { (sys::pathserve_version(), sys::pathserve_answers()) };
    if (version >> 8, answers) == (sys::VERSION >> 8, sys::ANSWERS) {
        Ok(())
    } else {
        Err(Error::OtherVersion)
    }
}
