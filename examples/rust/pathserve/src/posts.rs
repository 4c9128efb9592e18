//! Posts and their replies.
use pathserve_sys as sys;

/// The side of a navcell, as a coordinate or a length.
pub const NAVCELL: i32 = 65536;

/// A length in navcells as a coordinate, rounded down. For constants and tests: a game in lockstep computes without floats.
pub fn fixed(navcells: f64) -> i32 {
    (navcells * f64::from(NAVCELL)).floor() as i32
}

/// A passability class: its name, and how far its units keep from obstructions.
#[derive(Clone, Debug, PartialEq, Eq)]
pub struct Class {
    pub name: String,
    pub clearance: i32,
}

impl Class {
    pub fn new(name: &str, clearance: i32) -> Class {
        Class { name: name.to_owned(), clearance }
    }

    pub(crate) fn raw(&self) -> Option<sys::Class> {
        let mut name = [0; 64];
        name.get_mut(..self.name.len())?.copy_from_slice(self.name.as_bytes());
        Some(sys::Class { name, name_length: self.name.len() as u32, clearance: self.clearance })
    }
}

/// Where a path shall lead.
#[derive(Clone, Copy, Debug, PartialEq, Eq)]
pub enum Goal {
    Point { x: i32, z: i32 },
    Circle { x: i32, z: i32, radius: i32 },
    NotCircle { x: i32, z: i32, radius: i32 },
    Square { x: i32, z: i32, ux: i32, uz: i32, hw: i32, hh: i32 },
    NotSquare { x: i32, z: i32, ux: i32, uz: i32, hw: i32, hh: i32 },
    Obstruction { id: u32, distance: i32 },
}

/// A post of a caller.
#[derive(Clone, Copy, Debug, PartialEq, Eq)]
pub enum Post {
    AddUnit { caller: u8, id: u32, mask: u16, x: i32, z: i32, half: i32 },
    AddSquare { caller: u8, id: u32, mask: u16, x: i32, z: i32, ux: i32, uz: i32, hw: i32, hh: i32 },
    Remove { caller: u8, id: u32 },
    Move { caller: u8, id: u32, x: i32, z: i32 },
    Path { caller: u8, class: u8, x: i32, z: i32, goal: Goal },
    Region { caller: u8, class: u8, x: i32, z: i32 },
}

impl Post {
    pub(crate) fn raw(&self) -> sys::Post {
        let none = sys::Post::default();
        match *self {
            Post::AddUnit { caller, id, mask, x, z, half } => {
                sys::Post { kind: sys::ADD_UNIT, caller, id, mask, x, z, radius: half, ..none }
            }
            Post::AddSquare { caller, id, mask, x, z, ux, uz, hw, hh } => {
                sys::Post { kind: sys::ADD_SQUARE, caller, id, mask, x, z, ux, uz, hw, hh, ..none }
            }
            Post::Remove { caller, id } => sys::Post { kind: sys::REMOVE, caller, id, ..none },
            Post::Move { caller, id, x, z } => sys::Post { kind: sys::MOVE, caller, id, x, z, ..none },
            Post::Path { caller, class, x, z, goal } => {
                sys::Post { kind: sys::PATH, caller, class_number: class, x, z, ..goal.raw() }
            }
            Post::Region { caller, class, x, z } => {
                sys::Post { kind: sys::REGION, caller, class_number: class, x, z, ..none }
            }
        }
    }
}

/// The post that adds an obstruction.
pub(crate) fn add_of(post: &sys::Post) -> Post {
    let sys::Post { caller, id, mask, x, z, ux, uz, hw, hh, radius, .. } = *post;
    match post.kind {
        sys::ADD_UNIT => Post::AddUnit { caller, id, mask, x, z, half: radius },
        sys::ADD_SQUARE => Post::AddSquare { caller, id, mask, x, z, ux, uz, hw, hh },
        other => unreachable!("an obstruction of the kind {other}"),
    }
}

impl Goal {
    /// Asks for a path of a class from the point (x, z) to this goal.
    pub fn path(self, caller: u8, class: u8, x: i32, z: i32) -> Post {
        Post::Path { caller, class, x, z, goal: self }
    }

    fn raw(self) -> sys::Post {
        let none = sys::Post::default();
        match self {
            Goal::Point { x, z } => sys::Post { goal: sys::POINT, goal_x: x, goal_z: z, ..none },
            Goal::Circle { x, z, radius } => sys::Post { goal: sys::CIRCLE, goal_x: x, goal_z: z, radius, ..none },
            Goal::NotCircle { x, z, radius } => {
                sys::Post { goal: sys::NOT_CIRCLE, goal_x: x, goal_z: z, radius, ..none }
            }
            Goal::Square { x, z, ux, uz, hw, hh } => {
                sys::Post { goal: sys::SQUARE, goal_x: x, goal_z: z, ux, uz, hw, hh, ..none }
            }
            Goal::NotSquare { x, z, ux, uz, hw, hh } => {
                sys::Post { goal: sys::NOT_SQUARE, goal_x: x, goal_z: z, ux, uz, hw, hh, ..none }
            }
            Goal::Obstruction { id, distance } => sys::Post { goal: sys::OBSTRUCTION, id, radius: distance, ..none },
        }
    }
}

/// Why an edit or a request is refused.
#[derive(Clone, Copy, Debug, PartialEq, Eq)]
pub enum Refusal {
    BadShape,
    DuplicateId,
    StoreFull,
    UnknownId,
    UnknownClass,
    StartOutside,
    GoalOutside,
}

/// A path: its start, its end, what it costs, and the cells at which it turns, the end among them.
#[derive(Clone, Debug, PartialEq, Eq)]
pub struct Path {
    pub start: sys::Cell,
    pub end: sys::Cell,
    pub cost: u64,
    pub waypoints: Vec<sys::Cell>,
}

/// What a post is answered.
#[derive(Clone, Debug, PartialEq, Eq)]
pub enum Outcome {
    Added(u32),
    Removed(u32),
    Moved(u32),
    Refused(Refusal),
    Nowhere,
    AtGoal(Path),
    NearGoal(Path),
    InRegion { chunk: sys::Cell, region: u16, area: u32 },
    /// A path that costs more than it may: of `Finder::find_within` alone.
    TooFar,
}

/// The reply to the post of this number among those of its caller.
#[derive(Clone, Debug, PartialEq, Eq)]
pub struct Reply {
    pub caller: u8,
    pub post: u32,
    pub outcome: Outcome,
}

fn refusal(why: u8) -> Refusal {
    match why {
        sys::BAD_SHAPE => Refusal::BadShape,
        sys::DUPLICATE_ID => Refusal::DuplicateId,
        sys::STORE_FULL => Refusal::StoreFull,
        sys::UNKNOWN_ID => Refusal::UnknownId,
        sys::UNKNOWN_CLASS => Refusal::UnknownClass,
        sys::START_OUTSIDE => Refusal::StartOutside,
        sys::GOAL_OUTSIDE => Refusal::GoalOutside,
        other => unreachable!("a refusal of the kind {other}"),
    }
}

/// A reply, with the waypoints of its turn.
pub(crate) fn reply_of(reply: &sys::Reply, waypoints: &[sys::Cell]) -> Reply {
    let path = || {
        let first = reply.first_waypoint as usize;
        Path {
            start: reply.start,
            end: reply.end,
            cost: reply.cost,
            waypoints: waypoints[first..first + reply.waypoints as usize].to_vec(),
        }
    };
    let outcome = match reply.kind {
        sys::ADDED => Outcome::Added(reply.id),
        sys::REMOVED => Outcome::Removed(reply.id),
        sys::MOVED => Outcome::Moved(reply.id),
        sys::REFUSED => Outcome::Refused(refusal(reply.why)),
        sys::NOWHERE => Outcome::Nowhere,
        sys::AT_GOAL => Outcome::AtGoal(path()),
        sys::NEAR_GOAL => Outcome::NearGoal(path()),
        sys::IN_REGION => Outcome::InRegion { chunk: reply.chunk, region: reply.region, area: reply.area },
        sys::TOO_FAR => Outcome::TooFar,
        other => unreachable!("a reply of the kind {other}"),
    };
    Reply { caller: reply.caller, post: reply.post, outcome }
}
