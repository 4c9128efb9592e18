//! Views of what stands.
use crate::posts::{add_of, reply_of, Post, Reply};
use crate::{must, written, Error};
use pathserve_sys as sys;
use std::ptr;

/// How a path would end.
#[derive(Clone, Copy, Debug, PartialEq, Eq)]
pub enum PathEnd {
    Refused,
    /// No cell of the map is passable for the class.
    Nowhere,
    AtGoal,
    /// In this cell, the closest to the goal that can be reached.
    Near(sys::Cell),
}

/// What stood when it was made. It may move to another thread; [`View::again`] makes one for one more.
pub struct View(sys::View);

// SAFETY: a handle may pass to another thread where that is ordered, which a move is.
unsafe impl Send for View {}

impl View {
    pub(crate) fn closed() -> View {
        View(sys::View { live: 0, at: ptr::null_mut() })
    }

    pub(crate) fn handle(&mut self) -> *mut sys::View {
        &mut self.0
    }

    /// Another view of the same.
    pub fn again(&mut self) -> Result<View, Error> {
        let mut view = View::closed();
        // SAFETY: both are exclusive.
        must(unsafe { sys::pathserve_view_again(&mut self.0, &mut view.0) })?;
        Ok(view)
    }

    pub fn passable(&mut self, class_number: u32, i: u32, j: u32) -> bool {
        // SAFETY: an exclusive handle, as below.
        unsafe { sys::pathserve_passable(&mut self.0, class_number, i, j) != 0 }
    }

    /// The number of the cell's region in its chunk, or 0.
    pub fn region(&mut self, class_number: u32, i: u32, j: u32) -> u32 {
        unsafe { sys::pathserve_region(&mut self.0, class_number, i, j) }
    }

    /// The number of the cell's area, or 0: cells of one area can be reached from one another.
    pub fn area(&mut self, class_number: u32, i: u32, j: u32) -> u32 {
        unsafe { sys::pathserve_area(&mut self.0, class_number, i, j) }
    }

    /// Writes which cells of a row are passable, bit i % 64 of word i / 64 for column i, and gives how many words it wrote.
    pub fn row(&mut self, class_number: u32, j: u32, words: &mut [u64]) -> usize {
        // SAFETY: the buffer has its length.
        unsafe { sys::pathserve_row(&mut self.0, class_number, j, words.as_mut_ptr(), words.len()) }
    }

    /// The cell in which a path of a class from the point (x, z) starts: the one that holds it, or else the passable one
    /// nearest to it. None where there is none, or the point is not on the map.
    pub fn nearest(&mut self, class_number: u32, x: i32, z: i32) -> Option<sys::Cell> {
        let mut cell = sys::Cell::default();
        // SAFETY: an exclusive handle.
        let is_there = unsafe { sys::pathserve_nearest(&mut self.0, class_number, x, z, &mut cell) };
        (is_there != 0).then_some(cell)
    }

    /// How a path would end, without a search: where its goal can't be reached, in this cell, the closest to it that can.
    pub fn reachable(&mut self, post: &Post) -> Result<PathEnd, Error> {
        let mut cell = sys::Cell::default();
        // SAFETY: an exclusive handle, a post and a cell that may be written.
        match unsafe { sys::pathserve_reachable(&mut self.0, &post.raw(), &mut cell) } as u8 {
            sys::REFUSED => Ok(PathEnd::Refused),
            sys::NOWHERE => Ok(PathEnd::Nowhere),
            sys::AT_GOAL => Ok(PathEnd::AtGoal),
            sys::NEAR_GOAL => Ok(PathEnd::Near(cell)),
            _ => Err(Error::BadValue),
        }
    }

    /// How many columns and rows the map has.
    pub fn size(&mut self) -> (u32, u32) {
        let mut size = sys::Cell::default();
        // SAFETY: an exclusive handle.
        unsafe { sys::pathserve_view_size(&mut self.0, &mut size) };
        (size.i.into(), size.j.into())
    }

    /// The post by which caller 0 adds what stands under a number.
    pub fn standing_at(&mut self, id: u32) -> Option<Post> {
        let mut post = sys::Post::default();
        // SAFETY: an exclusive handle.
        let is_there = unsafe { sys::pathserve_standing_at(&mut self.0, id, &mut post) };
        (is_there != 0).then(|| add_of(&post))
    }

    /// All that stands, as the posts by which caller 0 adds it, by rising number.
    pub fn standing(&mut self) -> Result<Vec<Post>, Error> {
        let (mut posts, mut whole) = (Vec::<sys::Post>::new(), 0);
        loop {
            // SAFETY: an exclusive handle, and a buffer with its length.
            must(unsafe { sys::pathserve_standing(&mut self.0, 0, posts.as_mut_ptr(), posts.len(), &mut whole) })?;
            if posts.len() as u64 == whole {
                return Ok(posts.iter().map(add_of).collect());
            }
            posts.resize(whole as usize, sys::Post::default());
        }
    }

    /// What stands as a script: the map, and one turn in which caller 0 adds all that stands.
    pub fn snapshot(&mut self) -> Result<Vec<u8>, Error> {
        // SAFETY: the buffer has its length.
        written(|buffer, whole| unsafe {
            sys::pathserve_snapshot(&mut self.0, buffer.as_mut_ptr(), buffer.len(), whole)
        })
    }

    /// The digest of the snapshot: where two players have the same, the same stands.
    pub fn digest(&mut self) -> Result<u64, Error> {
        let mut digest = 0;
        // SAFETY: an exclusive handle, and a number that may be written.
        must(unsafe { sys::pathserve_view_digest(&mut self.0, &mut digest) }).map(|()| digest)
    }

    /// Answers a path or a region at once, as a turn without edits would. The match knows nothing of it.
    pub fn find(&mut self, post: &Post) -> Result<Reply, Error> {
        let (post, mut reply, mut waypoints) = (post.raw(), sys::Reply::default(), vec![sys::Cell::default(); 64]);
        loop {
            // SAFETY: the buffer has its length.
            must(unsafe {
                sys::pathserve_find(&mut self.0, &post, &mut reply, waypoints.as_mut_ptr(), waypoints.len())
            })?;
            match reply.waypoints as usize {
                count if count <= waypoints.len() => return Ok(reply_of(&reply, &waypoints)),
                count => waypoints.resize(count, sys::Cell::default()),
            }
        }
    }
}

impl View {
    /// Makes the flow field of a path, one for a whole group: of each cell, row by row, as far as the buffers reach, the step
    /// to take (1 to 8 for N, E, S, W, NE, SE, SW and NW, 9 on the goal, 0 where it can't be reached) and the distance. Its
    /// reply has no waypoints; where it has no path, the buffers stay.
    pub fn field(&mut self, post: &Post, steps: &mut [u8], distances: &mut [u64]) -> Result<Reply, Error> {
        let (post, mut reply) = (post.raw(), sys::Reply::default());
        // SAFETY: the buffers have their lengths.
        must(unsafe {
            sys::pathserve_field(
                &mut self.0,
                &post,
                &mut reply,
                steps.as_mut_ptr(),
                steps.len(),
                distances.as_mut_ptr(),
                distances.len(),
            )
        })?;
        reply.waypoints = 0;
        Ok(reply_of(&reply, &[]))
    }

    /// Whether a straight line between the middles of two cells touches passable cells alone.
    pub fn clear(&mut self, class_number: u32, from: sys::Cell, to: sys::Cell) -> bool {
        // SAFETY: an exclusive handle.
        unsafe { sys::pathserve_clear(&mut self.0, class_number, &from, &to) != 0 }
    }

    /// Keeps the fewest of a walk's waypoints that clear straight lines join. An error where these are those of no legal walk
    /// from the start.
    pub fn smooth(&mut self, class_number: u32, start: sys::Cell, waypoints: &mut Vec<sys::Cell>) -> Result<(), Error> {
        let mut kept = 0;
        // SAFETY: the buffer has its length.
        must(unsafe {
            sys::pathserve_smooth(&mut self.0, class_number, &start, waypoints.as_mut_ptr(), waypoints.len(), &mut kept)
        })?;
        waypoints.truncate(kept);
        Ok(())
    }
}

impl Drop for View {
    fn drop(&mut self) {
        // SAFETY: exclusive, and written by the library alone.
        unsafe { sys::pathserve_view_close(&mut self.0) }
    }
}
