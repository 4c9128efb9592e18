//! Matches by text and by posts.
use crate::posts::{reply_of, Class, Post, Reply};
use crate::{must, same_version, written, Error, View};
use pathserve_sys as sys;
use std::ptr;

/// What a match by text tells beside the answers.
#[derive(Clone, Copy, Debug, PartialEq, Eq)]
pub enum Report {
    Replay = 0,
    Profile = 1,
    Flow = 2,
    Smooth = 3,
}

/// An open match.
struct Owned(sys::Match);

// SAFETY: a handle may pass to another thread where that is ordered, which a move is.
unsafe impl Send for Owned {}

impl Owned {
    fn closed() -> Result<Owned, Error> {
        same_version()?;
        Ok(Owned(sys::Match { live: 0, at: ptr::null_mut() }))
    }

    fn view(&mut self) -> Result<View, Error> {
        let mut view = View::closed();
        // SAFETY: both are exclusive, and only the library has written them.
        must(unsafe { sys::pathserve_view_of(&mut self.0, view.handle()) })?;
        Ok(view)
    }
}

impl Drop for Owned {
    fn drop(&mut self) {
        // SAFETY: exclusive, and written by the library alone.
        unsafe { sys::pathserve_close(&mut self.0) }
    }
}

/// A match by the text of its script, as the program plays it.
pub struct TextMatch(Owned);

impl TextMatch {
    pub fn open(report: Report) -> Result<TextMatch, Error> {
        let mut owned = Owned::closed()?;
        // SAFETY: a closed handle that is all zero.
        must(unsafe { sys::pathserve_open(&mut owned.0, report as u32) })?;
        Ok(TextMatch(owned))
    }

    /// Feeds the next bytes of the script, cut anywhere. What is told waits to be taken, also where this fails.
    pub fn feed(&mut self, bytes: &[u8]) -> Result<(), Error> {
        let mut taken = 0;
        // SAFETY: the slice is readable for its length.
        let status = unsafe { sys::pathserve_feed(self.handle(), bytes.as_ptr(), bytes.len(), &mut taken) };
        match status {
            sys::NO_MEMORY => Err(Error::OutOfMemory { taken }),
            status => must(status),
        }
    }

    /// Lets a line have at most so many bytes: `feed` refuses those with which one would have more, and takes nothing.
    pub fn limit_line(&mut self, most: usize) {
        // SAFETY: an exclusive handle.
        unsafe { sys::pathserve_limit_line(self.handle(), most) };
    }

    /// Tells that the script has no more bytes.
    pub fn finish(&mut self) -> Result<(), Error> {
        // SAFETY: an exclusive handle.
        must(unsafe { sys::pathserve_finish(self.handle()) })
    }

    /// Why the line is bad at which the match has stopped, as the program says it. Empty as long as no line was bad.
    pub fn cause(&mut self) -> Result<String, Error> {
        // SAFETY: an exclusive handle, and a buffer with its length.
        let text = written(|buffer, whole| unsafe {
            sys::pathserve_cause(self.handle(), buffer.as_mut_ptr(), buffer.len(), whole)
        })?;
        Ok(String::from_utf8_lossy(&text).into_owned())
    }

    /// The text that waits. None waits then.
    pub fn take(&mut self) -> Vec<u8> {
        // SAFETY: the buffer has its length, all of it written.
        unsafe {
            let mut text = vec![0; sys::pathserve_waiting(self.handle())];
            let count = sys::pathserve_take(self.handle(), text.as_mut_ptr(), text.len());
            text.truncate(count);
            text
        }
    }

    /// What stands after the turns that have ended.
    pub fn view(&mut self) -> Result<View, Error> {
        self.0.view()
    }

    fn handle(&mut self) -> *mut sys::Match {
        &mut self.0 .0
    }
}

/// A turn's numbers, and the replies to its posts, caller by caller.
#[derive(Clone, Debug, PartialEq, Eq)]
pub struct Turn {
    pub turn: u64,
    pub regions: u64,
    pub edges: u64,
    pub areas: u64,
    pub relabelled: u32,
    pub replies: Vec<Reply>,
}

/// The number of the line at which a script is bad, and why, as the program says it. None where no line is bad.
pub fn cause_of(script: &[u8]) -> Result<Option<(u64, String)>, Error> {
    let mut line = 0;
    // SAFETY: a slice and a buffer with their lengths.
    let text = written(|buffer, whole| unsafe {
        sys::pathserve_script_cause(script.as_ptr(), script.len(), &mut line, buffer.as_mut_ptr(), buffer.len(), whole)
    })?;
    Ok((line != 0).then(|| (line, String::from_utf8_lossy(&text).into_owned())))
}

/// A match on a map, whose turns are posts.
pub struct PostedMatch(Owned);

/// What is wrong with a post.
#[derive(Clone, Copy, Debug, PartialEq, Eq)]
pub enum PostFault {
    /// An unknown kind.
    Kind,
    /// The map has no such caller.
    Caller,
    /// The map has no such class.
    Class,
    /// An unknown kind of goals.
    Goal,
    /// An unused field is not 0.
    UnusedField,
}

impl PostFault {
    fn of(number: u32) -> PostFault {
        match number {
            sys::WRONG_KIND => PostFault::Kind,
            sys::WRONG_CALLER => PostFault::Caller,
            sys::WRONG_CLASS => PostFault::Class,
            sys::WRONG_GOAL => PostFault::Goal,
            _ => PostFault::UnusedField,
        }
    }
}

impl PostedMatch {
    /// A match on a map of so many navcells and callers. Class k is `classes[k]`, and bit k of a mask is for it.
    pub fn open(
        width: u32,
        height: u32,
        callers: u32,
        classes: &[Class],
        base: &[sys::Rect],
    ) -> Result<PostedMatch, Error> {
        let mut owned = Owned::closed()?;
        let map = sys::Map { width, height, callers };
        let classes: Vec<sys::Class> = classes.iter().map(Class::raw).collect::<Option<_>>().ok_or(Error::BadValue)?;
        // SAFETY: a closed handle that is all zero, and slices with their lengths.
        must(unsafe {
            sys::pathserve_open_map(&mut owned.0, &map, classes.as_ptr(), classes.len(), base.as_ptr(), base.len())
        })?;
        Ok(PostedMatch(owned))
    }

    /// The same with the terrain as a grid of masks, that of cell (i, j) at place j * width + i.
    pub fn open_grid(
        width: u32,
        height: u32,
        callers: u32,
        classes: &[Class],
        masks: &[u16],
    ) -> Result<PostedMatch, Error> {
        let mut owned = Owned::closed()?;
        let map = sys::Map { width, height, callers };
        let classes: Vec<sys::Class> = classes.iter().map(Class::raw).collect::<Option<_>>().ok_or(Error::BadValue)?;
        // SAFETY: a closed handle that is all zero, and slices with their lengths.
        must(unsafe {
            sys::pathserve_open_grid(&mut owned.0, &map, classes.as_ptr(), classes.len(), masks.as_ptr(), masks.len())
        })?;
        Ok(PostedMatch(owned))
    }

    /// Lets at most so many posts wait for the end of a turn.
    pub fn limit_posts(&mut self, most: usize) {
        // SAFETY: an exclusive handle.
        unsafe { sys::pathserve_limit_posts(self.handle(), most) };
    }

    /// Posts, behind those that the turn has: all or none.
    pub fn post(&mut self, posts: &[Post]) -> Result<(), Error> {
        let posts: Vec<sys::Post> = posts.iter().map(Post::raw).collect();
        // SAFETY: a slice with its length.
        must(unsafe { sys::pathserve_post_all(self.handle(), posts.as_ptr(), posts.len()) })
    }

    /// The place of the first of these posts that `post` would refuse, and what is wrong with it. None where it would refuse
    /// none.
    pub fn check(&mut self, posts: &[Post]) -> Option<(usize, PostFault)> {
        let posts: Vec<sys::Post> = posts.iter().map(Post::raw).collect();
        let (mut which, mut why) = (0, 0);
        // SAFETY: a slice with its length, and two numbers that may be written.
        let status = unsafe { sys::pathserve_check(self.handle(), posts.as_ptr(), posts.len(), &mut which, &mut why) };
        (status == sys::BAD_VALUE).then(|| (which, PostFault::of(why)))
    }

    /// Makes the edits of the turn, and answers its requests on what they leave.
    pub fn end_turn(&mut self) -> Result<Turn, Error> {
        let mut turn = sys::Turn::default();
        // SAFETY: exclusive, and buffers with their lengths.
        let (replies, waypoints) = unsafe {
            must(sys::pathserve_end_turn(self.handle(), &mut turn))?;
            let mut replies = vec![sys::Reply::default(); turn.replies as usize];
            sys::pathserve_replies(self.handle(), 0, replies.as_mut_ptr(), replies.len());
            let mut waypoints = vec![sys::Cell::default(); turn.waypoints as usize];
            sys::pathserve_waypoints(self.handle(), 0, waypoints.as_mut_ptr(), waypoints.len());
            (replies, waypoints)
        };
        Ok(Turn {
            turn: turn.turn,
            regions: turn.regions,
            edges: turn.edges,
            areas: turn.areas,
            relabelled: turn.relabelled,
            replies: replies.iter().map(|reply| reply_of(reply, &waypoints)).collect(),
        })
    }

    /// The turns that have ended as a script, which a [`TextMatch`] or the program answers alike.
    pub fn journal(&mut self) -> Result<Vec<u8>, Error> {
        // SAFETY: the buffer has its length.
        written(|buffer, whole| unsafe {
            sys::pathserve_journal(self.handle(), buffer.as_mut_ptr(), buffer.len(), whole)
        })
    }

    /// A match in which a whole script of version 3 was played, such as a journal or the snapshot of a view.
    pub fn of_script(script: &[u8]) -> Result<PostedMatch, Error> {
        let (mut owned, mut line) = (Owned::closed()?, 0);
        // SAFETY: a closed handle that is all zero, and a slice with its length.
        let status = unsafe { sys::pathserve_open_script(&mut owned.0, script.as_ptr(), script.len(), &mut line) };
        match status {
            sys::BAD_LINE | sys::TOO_LONG => Err(Error::BadScript { line }),
            status => must(status).map(|()| PostedMatch(owned)),
        }
    }

    /// Lets go of the journal, and keeps none from then on. `forget` begins one again.
    pub fn keep_no_journal(&mut self) -> Result<(), Error> {
        // SAFETY: an exclusive handle.
        must(unsafe { sys::pathserve_keep_no_journal(self.handle()) })
    }

    /// Begins the journal anew, with one turn that adds what stands: the next turn is the second.
    pub fn forget(&mut self) -> Result<(), Error> {
        // SAFETY: an exclusive handle.
        must(unsafe { sys::pathserve_forget(self.handle()) })
    }

    /// The digest of the turn that ended last; 0 where none has ended.
    pub fn digest(&mut self) -> Result<u64, Error> {
        let mut digest = 0;
        // SAFETY: an exclusive handle, and a number that may be written.
        must(unsafe { sys::pathserve_turn_digest(self.handle(), &mut digest) }).map(|()| digest)
    }

    /// What stands after the turns that have ended.
    pub fn view(&mut self) -> Result<View, Error> {
        self.0.view()
    }

    fn handle(&mut self) -> *mut sys::Match {
        &mut self.0 .0
    }
}
