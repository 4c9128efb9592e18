//! The structs and calls of `pathserve.h`, word for word. What each call owes and gives stands there.
#![no_std]

use core::ffi::c_void;

/// No text of the library has more bytes.
pub const TEXT: usize = 96;
pub const VERSION: u32 = 1 << 8;
pub const ANSWERS: u32 = 2;

pub const ADD_UNIT: u8 = 1;
pub const ADD_SQUARE: u8 = 2;
pub const REMOVE: u8 = 3;
pub const MOVE: u8 = 4;
pub const PATH: u8 = 5;
pub const REGION: u8 = 6;

pub const POINT: u8 = 1;
pub const CIRCLE: u8 = 2;
pub const NOT_CIRCLE: u8 = 3;
pub const SQUARE: u8 = 4;
pub const NOT_SQUARE: u8 = 5;
pub const OBSTRUCTION: u8 = 6;

pub const WRONG_KIND: u32 = 1;
pub const WRONG_CALLER: u32 = 2;
pub const WRONG_CLASS: u32 = 3;
pub const WRONG_GOAL: u32 = 4;
pub const NOT_ZERO: u32 = 5;

pub const ADDED: u8 = 1;
pub const REMOVED: u8 = 2;
pub const MOVED: u8 = 3;
pub const REFUSED: u8 = 4;
pub const NOWHERE: u8 = 5;
pub const AT_GOAL: u8 = 6;
pub const NEAR_GOAL: u8 = 7;
pub const IN_REGION: u8 = 8;
pub const TOO_FAR: u8 = 9;

pub const BAD_SHAPE: u8 = 1;
pub const DUPLICATE_ID: u8 = 2;
pub const STORE_FULL: u8 = 3;
pub const UNKNOWN_ID: u8 = 4;
pub const UNKNOWN_CLASS: u8 = 5;
pub const START_OUTSIDE: u8 = 6;
pub const GOAL_OUTSIDE: u8 = 7;

pub const DONE: u32 = 0;
pub const BAD_LINE: u32 = 3;
pub const NO_MEMORY: u32 = 6;
pub const TOO_LONG: u32 = 7;
pub const CLOSED: u32 = 16;
pub const OPEN: u32 = 17;
pub const OTHER: u32 = 18;
pub const ENDED: u32 = 19;
pub const NO_MAP: u32 = 20;
pub const BAD_VALUE: u32 = 21;
pub const SMALL: u32 = 22;
pub const PAST_LIMIT: u32 = 23;
pub const NO_JOURNAL: u32 = 24;

/// A match: all zero before it is opened, written by the library alone, never copied.
#[repr(C)]
pub struct Match {
    pub live: u64,
    pub at: *mut c_void,
}

/// A view, as a match.
#[repr(C)]
pub struct View {
    pub live: u64,
    pub at: *mut c_void,
}

/// A finder, as a match.
#[repr(C)]
pub struct Finder {
    pub live: u64,
    pub at: *mut c_void,
}

#[repr(C)]
#[derive(Clone, Copy, Debug, Default, PartialEq, Eq)]
pub struct Cell {
    pub i: u16,
    pub j: u16,
}

#[repr(C)]
#[derive(Clone, Copy, Debug)]
pub struct Map {
    pub width: u32,
    pub height: u32,
    pub callers: u32,
}

#[repr(C)]
#[derive(Clone, Copy, Debug)]
pub struct Class {
    pub name: [u8; 64],
    pub name_length: u32,
    pub clearance: i32,
}

#[repr(C)]
#[derive(Clone, Copy, Debug)]
pub struct Rect {
    pub i0: u16,
    pub j0: u16,
    pub i1: u16,
    pub j1: u16,
    pub mask: u16,
    pub zero: u16,
}

#[repr(C)]
#[derive(Clone, Copy, Debug, Default)]
pub struct Post {
    pub kind: u8,
    pub caller: u8,
    pub class_number: u8,
    pub goal: u8,
    pub mask: u16,
    pub zero: u16,
    pub id: u32,
    pub x: i32,
    pub z: i32,
    pub goal_x: i32,
    pub goal_z: i32,
    pub ux: i32,
    pub uz: i32,
    pub hw: i32,
    pub hh: i32,
    pub radius: i32,
}

#[repr(C)]
#[derive(Clone, Copy, Debug, Default)]
pub struct Turn {
    pub turn: u64,
    pub regions: u64,
    pub edges: u64,
    pub areas: u64,
    pub replies: u64,
    pub waypoints: u64,
    pub relabelled: u32,
    pub zero: u32,
}

#[repr(C)]
#[derive(Clone, Copy, Debug, Default)]
pub struct Reply {
    pub kind: u8,
    pub caller: u8,
    pub why: u8,
    pub zero: u8,
    pub post: u32,
    pub id: u32,
    pub start: Cell,
    pub end: Cell,
    pub chunk: Cell,
    pub region: u16,
    pub zero_too: u16,
    pub area: u32,
    pub waypoints: u64,
    pub first_waypoint: u64,
    pub cost: u64,
}

extern "C" {
    pub fn pathserve_version() -> u32;
    pub fn pathserve_answers() -> u32;
    pub fn pathserve_size_of(which: u32) -> usize;
    pub fn pathserve_status_text(status: u32, buffer: *mut u8, length: usize) -> usize;
    pub fn pathserve_refusal_text(why: u32, buffer: *mut u8, length: usize) -> usize;
    pub fn pathserve_fault_text(why: u32, buffer: *mut u8, length: usize) -> usize;
    pub fn pathserve_version_text(buffer: *mut u8, length: usize) -> usize;

    pub fn pathserve_close(its: *mut Match);

    pub fn pathserve_open(its: *mut Match, report: u32) -> u32;
    pub fn pathserve_feed(its: *mut Match, bytes: *const u8, length: usize, taken: *mut usize) -> u32;
    pub fn pathserve_limit_line(its: *mut Match, most: usize) -> u32;
    pub fn pathserve_finish(its: *mut Match) -> u32;
    pub fn pathserve_cause(its: *mut Match, buffer: *mut u8, length: usize, whole: *mut usize) -> u32;
    pub fn pathserve_waiting(its: *mut Match) -> usize;
    pub fn pathserve_take(its: *mut Match, buffer: *mut u8, length: usize) -> usize;

    pub fn pathserve_open_map(
        its: *mut Match,
        map: *const Map,
        classes: *const Class,
        class_count: usize,
        base: *const Rect,
        base_count: usize,
    ) -> u32;
    pub fn pathserve_open_grid(
        its: *mut Match,
        map: *const Map,
        classes: *const Class,
        class_count: usize,
        masks: *const u16,
        count: usize,
    ) -> u32;
    pub fn pathserve_limit_posts(its: *mut Match, most: usize) -> u32;
    pub fn pathserve_post_all(its: *mut Match, posts: *const Post, count: usize) -> u32;
    pub fn pathserve_check(its: *mut Match, posts: *const Post, count: usize, which: *mut usize, why: *mut u32) -> u32;
    pub fn pathserve_end_turn(its: *mut Match, turn: *mut Turn) -> u32;
    pub fn pathserve_replies(its: *mut Match, first: u64, replies: *mut Reply, count: usize) -> usize;
    pub fn pathserve_waypoints(its: *mut Match, first: u64, waypoints: *mut Cell, count: usize) -> usize;
    pub fn pathserve_journal(its: *mut Match, buffer: *mut u8, length: usize, whole: *mut usize) -> u32;

    pub fn pathserve_view_of(its: *mut Match, view: *mut View) -> u32;
    pub fn pathserve_view_again(from: *mut View, view: *mut View) -> u32;
    pub fn pathserve_view_close(view: *mut View);
    pub fn pathserve_passable(view: *mut View, class_number: u32, i: u32, j: u32) -> u32;
    pub fn pathserve_region(view: *mut View, class_number: u32, i: u32, j: u32) -> u32;
    pub fn pathserve_area(view: *mut View, class_number: u32, i: u32, j: u32) -> u32;
    pub fn pathserve_row(view: *mut View, class_number: u32, j: u32, words: *mut u64, count: usize) -> usize;
    pub fn pathserve_nearest(view: *mut View, class_number: u32, x: i32, z: i32, cell: *mut Cell) -> u32;
    pub fn pathserve_reachable(view: *mut View, post: *const Post, cell: *mut Cell) -> u32;
    pub fn pathserve_view_size(view: *mut View, size: *mut Cell) -> u32;
    pub fn pathserve_standing_at(view: *mut View, id: u32, post: *mut Post) -> u32;
    pub fn pathserve_standing(view: *mut View, first: u64, posts: *mut Post, count: usize, whole: *mut u64) -> u32;
    pub fn pathserve_find(
        view: *mut View,
        post: *const Post,
        reply: *mut Reply,
        waypoints: *mut Cell,
        count: usize,
    ) -> u32;

    pub fn pathserve_finder_open(finder: *mut Finder) -> u32;
    pub fn pathserve_finder_close(finder: *mut Finder);
    pub fn pathserve_find_with(
        finder: *mut Finder,
        view: *mut View,
        post: *const Post,
        reply: *mut Reply,
        waypoints: *mut Cell,
        count: usize,
    ) -> u32;
    pub fn pathserve_find_within(
        finder: *mut Finder,
        view: *mut View,
        post: *const Post,
        most: u64,
        reply: *mut Reply,
        waypoints: *mut Cell,
        count: usize,
    ) -> u32;
    pub fn pathserve_find_all(
        finder: *mut Finder,
        view: *mut View,
        posts: *const Post,
        post_count: usize,
        replies: *mut Reply,
        reply_count: usize,
        waypoints: *mut Cell,
        waypoint_count: usize,
    ) -> u32;

    pub fn pathserve_field(
        view: *mut View,
        post: *const Post,
        reply: *mut Reply,
        steps: *mut u8,
        step_count: usize,
        distances: *mut u64,
        distance_count: usize,
    ) -> u32;
    pub fn pathserve_clear(view: *mut View, class_number: u32, from: *const Cell, to: *const Cell) -> u32;
    pub fn pathserve_smooth(
        view: *mut View,
        class_number: u32,
        start: *const Cell,
        waypoints: *mut Cell,
        count: usize,
        kept: *mut usize,
    ) -> u32;

    pub fn pathserve_open_script(its: *mut Match, script: *const u8, length: usize, bad_line: *mut u64) -> u32;
    pub fn pathserve_script_cause(
        script: *const u8,
        length: usize,
        bad_line: *mut u64,
        buffer: *mut u8,
        buffer_length: usize,
        whole: *mut usize,
    ) -> u32;
    pub fn pathserve_snapshot(view: *mut View, buffer: *mut u8, length: usize, whole: *mut usize) -> u32;
    pub fn pathserve_keep_no_journal(its: *mut Match) -> u32;
    pub fn pathserve_forget(its: *mut Match) -> u32;
    pub fn pathserve_turn_digest(its: *mut Match, digest: *mut u64) -> u32;
    pub fn pathserve_view_digest(view: *mut View, digest: *mut u64) -> u32;
}
