//! Posts of every kind there and back, and flat posts that are none.

use class_config::{ClassName, ClassTable, PassabilityClass};
use fixed_point::Fixed;
use flat_posts::goal_kinds::{CIRCLE, NOT_CIRCLE, NOT_SQUARE, OBSTRUCTION, POINT, SQUARE};
use flat_posts::post_kinds::{ADD_SQUARE, ADD_UNIT, MOVE, PATH, REGION, REMOVE};
use flat_posts::{FlatFault, FlatPost};
use nav_types::{Sequence, Size};
use posts::MapSpec;
use std::alloc::Global;

/// A class of a map.
fn class(name: &[u8]) -> Option<PassabilityClass> {
    Some(PassabilityClass {
        name: ClassName::new(name)?,
        clearance: Fixed::from_raw(32768),
    })
}

/// A map with two classes for three callers.
fn map(alloc: Global) -> Option<MapSpec> {
    let classes = ClassTable::new(alloc, &[class(b"infantry")?, class(b"siege")?]).ok()?;
    let size = Size::new(12, 8)?;
    MapSpec::new(3, size, 3, classes, Sequence::new(alloc))
}

/// A flat post whose fields are 0.
const BARE: FlatPost = FlatPost {
    kind: 0,
    caller: 0,
    class_number: 0,
    goal: 0,
    mask: 0,
    zero: 0,
    id: 0,
    x: 0,
    z: 0,
    goal_x: 0,
    goal_z: 0,
    ux: 0,
    uz: 0,
    hw: 0,
    hh: 0,
    radius: 0,
};

/// An edit of obstruction 7 at a point.
const EDIT: FlatPost = FlatPost {
    id: 7,
    x: 98_304,
    z: 32_768,
    ..BARE
};

/// A path of class 1 of the last caller.
const ASKED: FlatPost = FlatPost {
    kind: PATH,
    caller: 2,
    class_number: 1,
    x: 98_304,
    z: 32_768,
    ..BARE
};

/// A path to a goal about a middle.
const ABOUT: FlatPost = FlatPost {
    goal_x: 131_072,
    goal_z: -1,
    ..ASKED
};

/// A path to a goal with a radius.
const ROUND: FlatPost = FlatPost {
    radius: 65_536,
    ..ABOUT
};

/// A path to a goal with a vector and half sides.
const SQUARED: FlatPost = FlatPost {
    ux: 39_322,
    uz: -52_429,
    hw: 65_536,
    hh: 196_608,
    ..ABOUT
};

/// A post of each kind, and a path to each kind of goals.
const EVERY_KIND: &[FlatPost] = &[
    FlatPost {
        kind: ADD_UNIT,
        mask: 2,
        radius: 65_536,
        ..EDIT
    },
    FlatPost {
        kind: ADD_SQUARE,
        mask: 65_535,
        ux: 39_322,
        uz: -52_429,
        hw: 65_536,
        hh: 196_608,
        ..EDIT
    },
    FlatPost {
        kind: REMOVE,
        caller: 1,
        id: 7,
        ..BARE
    },
    FlatPost { kind: MOVE, ..EDIT },
    FlatPost {
        goal: POINT,
        ..ABOUT
    },
    FlatPost {
        goal: CIRCLE,
        ..ROUND
    },
    FlatPost {
        goal: NOT_CIRCLE,
        ..ROUND
    },
    FlatPost {
        goal: SQUARE,
        ..SQUARED
    },
    FlatPost {
        goal: NOT_SQUARE,
        ..SQUARED
    },
    FlatPost {
        goal: OBSTRUCTION,
        id: 7,
        radius: 65_536,
        ..ASKED
    },
    FlatPost {
        kind: REGION,
        ..ASKED
    },
    FlatPost {
        kind: REMOVE,
        ..BARE
    },
];

/// Flat posts that are none, each with what is wrong with it.
const REFUSED: &[(FlatPost, FlatFault)] = &[
    (BARE, FlatFault::Kind),
    (FlatPost { kind: 7, ..BARE }, FlatFault::Kind),
    (
        FlatPost {
            goal: POINT,
            class_number: 2,
            ..ABOUT
        },
        FlatFault::Class,
    ),
    (ASKED, FlatFault::Goal),
    (FlatPost { goal: 7, ..ASKED }, FlatFault::Goal),
    (
        FlatPost {
            kind: MOVE,
            ux: 39_322,
            uz: -52_429,
            hw: 65_536,
            hh: 196_608,
            ..EDIT
        },
        FlatFault::UnusedField,
    ),
];

/// Whether the flat post is a post whose flat form it is.
fn comes_back(map: &MapSpec, flat: &FlatPost) -> bool {
    match flat.read(map) {
        Ok((caller, post)) => FlatPost::of(caller, &post, map) == Some(*flat),
        Err(_) => false,
    }
}

/// Whether the flat post is refused for this.
fn is_refused(map: &MapSpec, flat: &FlatPost, wanted: FlatFault) -> bool {
    match flat.read(map) {
        Ok(_) => false,
        Err(fault) => fault == wanted,
    }
}

/// Whether the post comes back, and none like it of a caller or a field too many is taken.
fn is_told_apart(map: &MapSpec, flat: FlatPost) -> bool {
    let stranger = FlatPost { caller: 3, ..flat };
    let filled = FlatPost { zero: 1, ..flat };
    comes_back(map, &flat)
        && is_refused(map, &stranger, FlatFault::Caller)
        && is_refused(map, &filled, FlatFault::UnusedField)
}

/// Whether the posts of every kind are told apart, and the others are refused as they must be.
fn are_told_apart(map: &MapSpec) -> bool {
    for &flat in EVERY_KIND {
        if !is_told_apart(map, flat) {
            return false;
        }
    }
    for (flat, fault) in REFUSED {
        if !is_refused(map, flat, *fault) {
            return false;
        }
    }
    true
}

#[test]
fn posts_of_every_kind_go_there_and_back(rt: HostRuntime) {
    let Some(map) = map(rt.alloc()) else {
        panic!(rt; "no map");
    };
    assert!(rt; are_told_apart(&map));
}
