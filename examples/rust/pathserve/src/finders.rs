//! Finders, which keep the memory of their searches from one call to the next.
use crate::posts::{reply_of, Post, Reply};
use crate::{must, same_version, Error, View};
use pathserve_sys as sys;
use std::ptr;

/// Answers paths and regions by views of any match, as [`View::find`] does and faster: a thread that finds paths keeps one.
pub struct Finder(sys::Finder);

// SAFETY: a handle may pass to another thread where that is ordered, which a move is.
unsafe impl Send for Finder {}

impl Finder {
    pub fn open() -> Result<Finder, Error> {
        same_version()?;
        let mut finder = Finder(sys::Finder { live: 0, at: ptr::null_mut() });
        // SAFETY: a closed handle that is all zero.
        must(unsafe { sys::pathserve_finder_open(&mut finder.0) })?;
        Ok(finder)
    }

    /// What `view.find` answers to the post.
    pub fn find(&mut self, view: &mut View, post: &Post) -> Result<Reply, Error> {
        let post = post.raw();
        found(|reply, waypoints| {
            // SAFETY: both handles are exclusive, and the buffer has its length.
            must(unsafe {
                sys::pathserve_find_with(
                    &mut self.0,
                    view.handle(),
                    &post,
                    reply,
                    waypoints.as_mut_ptr(),
                    waypoints.len(),
                )
            })
        })
    }

    /// What `view.find` answers to the post, if that is no path that costs more than `most`; else `Outcome::TooFar`.
    pub fn find_within(&mut self, view: &mut View, post: &Post, most: u64) -> Result<Reply, Error> {
        let post = post.raw();
        found(|reply, waypoints| {
            // SAFETY: both handles are exclusive, and the buffer has its length.
            must(unsafe {
                sys::pathserve_find_within(
                    &mut self.0,
                    view.handle(),
                    &post,
                    most,
                    reply,
                    waypoints.as_mut_ptr(),
                    waypoints.len(),
                )
            })
        })
    }

    /// What `view.find` answers to each of the posts, in their order. A reply's `post` is the place of its post.
    pub fn find_all(&mut self, view: &mut View, posts: &[Post]) -> Result<Vec<Reply>, Error> {
        let posts: Vec<sys::Post> = posts.iter().map(Post::raw).collect();
        let mut replies = vec![sys::Reply::default(); posts.len()];
        let mut waypoints = vec![sys::Cell::default(); 64 * posts.len()];
        loop {
            // SAFETY: both handles are exclusive, and the slices have their lengths.
            must(unsafe {
                sys::pathserve_find_all(
                    &mut self.0,
                    view.handle(),
                    posts.as_ptr(),
                    posts.len(),
                    replies.as_mut_ptr(),
                    replies.len(),
                    waypoints.as_mut_ptr(),
                    waypoints.len(),
                )
            })?;
            let count =
                replies.iter().map(|reply| (reply.first_waypoint + reply.waypoints) as usize).max().unwrap_or(0);
            if count <= waypoints.len() {
                return Ok(replies.iter().map(|reply| reply_of(reply, &waypoints)).collect());
            }
            waypoints.resize(count, sys::Cell::default());
        }
    }
}

/// The reply that a call writes, with all its waypoints.
fn found(mut ask: impl FnMut(&mut sys::Reply, &mut [sys::Cell]) -> Result<(), Error>) -> Result<Reply, Error> {
    let (mut reply, mut waypoints) = (sys::Reply::default(), vec![sys::Cell::default(); 64]);
    loop {
        ask(&mut reply, &mut waypoints)?;
        match reply.waypoints as usize {
            count if count <= waypoints.len() => return Ok(reply_of(&reply, &waypoints)),
            count => waypoints.resize(count, sys::Cell::default()),
        }
    }
}

impl Drop for Finder {
    fn drop(&mut self) {
        // SAFETY: exclusive, and written by the library alone.
        unsafe { sys::pathserve_finder_close(&mut self.0) }
    }
}
