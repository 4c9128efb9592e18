//! Small maps, and one of the largest size.

use crate::fixtures::versions::{after, drawn_for, version_of};
use crate::fixtures::views::shared;
use fixed_point::Fixed;
use grid_versions::{Edit, EditReply, Edits, Next, Refusal, Version};
use nav_types::{Areas, Cell, Class, NoMemory, Rect, Rows, View};
use obstruction_shapes::{Obstruction, Shape};
use std::alloc::Global;

/// The rectangle of the columns from the first number to the second, and the rows up to the third, with the fourth as its
/// mask.
fn wall_of([i0, i1, j1, mask]: [u16; 4]) -> (Rect, u16) {
    (Rect { i0, j0: 0, i1, j1 }, mask)
}

/// The numbers of regions, edges and areas.
fn numbers_of(version: &Version) -> [u64; 3] {
    let tallies = version.tallies();
    [tallies.regions, tallies.edges, tallies.areas]
}

// The sides of a map of one class, its wall, the numbers of regions, edges and areas, and how many cells are passable.
const WALLS: [([u16; 2], [u16; 4], [u64; 3], u32); 7] = [
    // one cell of nine is blocked
    ([3, 3], [1, 1, 0, 1], [1, 0, 1], 8),
    // two chunks that are joined along their border
    ([100, 10], [0, 9, 9, 0], [2, 1, 1], 1000),
    // the wall stands along the border
    ([100, 10], [95, 96, 9, 1], [2, 0, 2], 980),
    // the wall leaves a gap in the last row
    ([100, 10], [95, 96, 8, 1], [2, 1, 1], 982),
    // the wall parts the first chunk
    ([100, 10], [50, 50, 9, 1], [3, 1, 2], 990),
    // the wall parts the two chunks in the east, and leaves a gap in the last rows
    ([100, 100], [97, 97, 96, 1], [5, 5, 1], 9903),
    // nothing is passable
    ([100, 100], [0, 99, 99, 1], [0, 0, 0], 0),
];

#[test]
fn regions_edges_and_areas_are_counted(rt: HostRuntime) {
    for (sides, wall, wanted, passable) in WALLS {
        let Some(version) = version_of(rt.alloc(), sides, (1, "0"), &[wall_of(wall)]) else {
            panic!(rt; "no map");
        };
        assert!(rt;
            numbers_of(shared(&version)) == wanted && passable_in(&version, 0) == Some(passable),
            "in {sides:?} with {wall:?}"
        );
    }
}

// Cells of 100 by 10 whose wall is the column 50, with the place of the chunk, the region and the area.
const CELLS: [([u16; 2], Option<(u32, u16, u32)>); 6] = [
    ([0, 0], Some((0, 1, 1))),
    ([49, 9], Some((0, 1, 1))),
    ([50, 4], Some((0, 0, 0))),
    ([51, 9], Some((0, 2, 2))),
    ([96, 0], Some((1, 1, 2))),
    ([100, 0], None),
];

/// The place of the cell's chunk, its region and its area; none where the cell lies outside the map.
fn place_in(version: &Version, [i, j]: [u16; 2]) -> Option<(u32, u16, u32)> {
    let (class, cell) = (Class::new(0), Cell::new(i, j));
    if version.classes() < 1 || !version.size().has(cell) {
        return None;
    }
    let region = version.region(class, cell);
    Some((region.chunk, region.region, version.area(class, cell)))
}

#[test]
fn cells_have_their_regions_and_areas(rt: HostRuntime) {
    let wall = wall_of([50, 50, 9, 1]);
    let Some(version) = version_of(rt.alloc(), [100, 10], (1, "0"), &[wall]) else {
        panic!(rt; "no map");
    };
    for (cell, wanted) in CELLS {
        assert!(rt; place_in(&version, cell) == wanted, "at {cell:?}");
    }
}

/// A map of so many classes of one clearance, edits that are made on it, further ones that are then made, and what is
/// there after these.
#[derive(Drop)]
struct Turn {
    sides: [u16; 2],
    classes: (u8, &'static str),
    first: &'static str,
    then: &'static str,
    replies: &'static [EditReply],
    /// How many pairs of chunk and class are relabelled, and how many regions, edges and areas there are.
    numbers: [u64; 4],
    /// How many cells are passable for the first class, and how many obstructions stand.
    counts: (u32, u32),
    /// Cells with their chunks, regions and areas.
    places: &'static [([u16; 2], (u32, u16, u32))],
}

const TURNS: [Turn; 11] = [
    // of two obstructions over a cell, one is removed
    Turn {
        sides: [3, 1],
        classes: (1, "0"),
        first: "add 1 1 unit 98304 32768 16384\nadd 2 65535 unit 98304 32768 16384",
        then: "remove 1",
        replies: &[EditReply::Removed(1)],
        numbers: [0, 2, 0, 2],
        counts: (2, 1),
        places: &[([1, 0], (0, 0, 0))],
    },
    // a square over the border of two chunks, with its middle at (95, 0.5), blocks the columns 93 to 96
    Turn {
        sides: [192, 1],
        classes: (1, "1"),
        first: "",
        then: "add 7 65535 unit 6225920 32768 32768",
        replies: &[EditReply::Added(7)],
        numbers: [2, 2, 0, 2],
        counts: (188, 1),
        places: &[
            ([92, 0], (0, 1, 1)),
            ([93, 0], (0, 0, 0)),
            ([97, 0], (1, 1, 2)),
        ],
    },
    // an obstruction over the cell (240, 0) parts the third of four chunks
    Turn {
        sides: [300, 1],
        classes: (1, "0"),
        first: "",
        then: "add 1 1 unit 15761408 32768 16384",
        replies: &[EditReply::Added(1)],
        numbers: [1, 5, 3, 2],
        counts: (299, 1),
        places: &[([299, 0], (3, 1, 2))],
    },
    // until it is removed
    Turn {
        sides: [300, 1],
        classes: (1, "0"),
        first: "add 1 1 unit 15761408 32768 16384",
        then: "remove 1",
        replies: &[EditReply::Removed(1)],
        numbers: [1, 4, 3, 1],
        counts: (300, 0),
        places: &[([299, 0], (3, 1, 1))],
    },
    // one over the first cell of the third chunk, so that its edge to the second one goes
    Turn {
        sides: [300, 1],
        classes: (1, "0"),
        first: "",
        then: "add 1 1 unit 12615680 32768 16384",
        replies: &[EditReply::Added(1)],
        numbers: [1, 4, 2, 2],
        counts: (299, 1),
        places: &[
            ([191, 0], (1, 1, 1)),
            ([192, 0], (2, 0, 0)),
            ([193, 0], (2, 1, 2)),
        ],
    },
    // one over the last cell of the second chunk, so that its edge to the third one goes although its region stays
    Turn {
        sides: [300, 1],
        classes: (1, "0"),
        first: "",
        then: "add 1 1 unit 12550144 32768 16384",
        replies: &[EditReply::Added(1)],
        numbers: [1, 4, 2, 2],
        counts: (299, 1),
        places: &[
            ([190, 0], (1, 1, 1)),
            ([191, 0], (1, 0, 0)),
            ([192, 0], (2, 1, 2)),
        ],
    },
    // one over the first cell of the third chunk of a column
    Turn {
        sides: [1, 300],
        classes: (1, "0"),
        first: "",
        then: "add 1 1 unit 32768 12615680 16384",
        replies: &[EditReply::Added(1)],
        numbers: [1, 4, 2, 2],
        counts: (299, 1),
        places: &[
            ([0, 191], (1, 1, 1)),
            ([0, 192], (2, 0, 0)),
            ([0, 193], (2, 1, 2)),
        ],
    },
    // a mask names the classes that an obstruction blocks; the mask 0 names none
    Turn {
        sides: [3, 1],
        classes: (2, "0"),
        first: "",
        then: "add 1 2 unit 98304 32768 16384\nadd 2 0 unit 32768 32768 16384",
        replies: &[EditReply::Added(1), EditReply::Added(2)],
        numbers: [1, 3, 0, 3],
        counts: (3, 2),
        places: &[],
    },
    // a move, and each refusal but that of a full store; an add is judged by its shape before its number
    Turn {
        sides: [3, 1],
        classes: (1, "0"),
        first: "add 1 1 unit 98304 32768 16384",
        then: "move 1 32768 32768\nmove 2 32768 32768\nmove 1 196608 32768\nadd 1 1 unit 196608 32768 16384\n\
            add 1 1 unit 163840 32768 16384\nremove 2",
        replies: &[
            EditReply::Moved(1),
            EditReply::Refused(Refusal::UnknownId),
            EditReply::Refused(Refusal::BadShape),
            EditReply::Refused(Refusal::BadShape),
            EditReply::Refused(Refusal::DuplicateId),
            EditReply::Refused(Refusal::UnknownId),
        ],
        numbers: [1, 1, 0, 1],
        counts: (2, 1),
        places: &[([0, 0], (0, 0, 0))],
    },
    // where all is refused, all stays as it is
    Turn {
        sides: [3, 1],
        classes: (1, "0"),
        first: "add 1 1 unit 98304 32768 16384",
        then: "remove 2\nmove 2 32768 32768\nmove 1 196608 32768\nadd 1 1 unit 32768 32768 16384\n\
            add 2 1 unit 196608 32768 16384",
        replies: &[
            EditReply::Refused(Refusal::UnknownId),
            EditReply::Refused(Refusal::UnknownId),
            EditReply::Refused(Refusal::BadShape),
            EditReply::Refused(Refusal::DuplicateId),
            EditReply::Refused(Refusal::BadShape),
        ],
        numbers: [0, 2, 0, 2],
        counts: (2, 1),
        places: &[([1, 0], (0, 0, 0)), ([2, 0], (0, 2, 2))],
    },
    // a line of half length 9.97 whose unit vector has the length 255/256: the cell 10 columns away lies 9.96 along it
    Turn {
        sides: [12, 1],
        classes: (1, "0"),
        first: "",
        then: "add 1 65535 square 32768 32768 65280 0 653393 0",
        replies: &[EditReply::Added(1)],
        numbers: [1, 1, 0, 1],
        counts: (1, 1),
        places: &[([10, 0], (0, 0, 0)), ([11, 0], (0, 1, 1))],
    },
];

/// The relabelled number, and the numbers of regions, edges and areas.
fn all_numbers_of(next: &Next) -> [u64; 4] {
    let [regions, edges, areas] = numbers_of(&next.version);
    [u64::from(next.relabelled), regions, edges, areas]
}

/// How many cells are passable for the class, by asking for each; none where the map has no such class, or where the version
/// says otherwise whether there are any.
fn passable_in(version: &Version, class: u8) -> Option<u32> {
    if class >= version.classes() {
        return None;
    }
    let (class, size) = (Class::new(class), version.size());
    let mut count: u32 = 0;
    for j in 0..size.h {
        for i in 0..size.w {
            let passable = version.passable(class, Cell::new(i, j));
            count = count.saturating_add(u32::from(passable));
        }
    }
    if version.has_passable(class) == (count > 0) {
        Some(count)
    } else {
        None
    }
}

/// What the edits of a turn make of its map. None where a text is none of its form, or there is no memory.
fn made(alloc: Global, turn: &Turn) -> Option<Next> {
    let open = version_of(alloc, turn.sides, turn.classes, &[])?;
    let begun = after(&open, alloc, turn.first)?;
    after(&begun.version, alloc, turn.then)
}

/// Whether this is what is there after a turn.
fn is_made(turn: &Turn, next: &Next) -> bool {
    let version = &next.version;
    for (cell, place) in turn.places {
        if place_in(version, *cell) != Some(*place) {
            return false;
        }
    }
    next.replies.as_slice() == turn.replies
        && all_numbers_of(next) == turn.numbers
        && passable_in(version, 0) == Some(turn.counts.0)
        && version.shapes().count() == turn.counts.1
}

#[test]
fn edits_make_what_the_table_says(rt: HostRuntime) {
    for turn in &TURNS {
        let Some(next) = made(rt.alloc(), turn) else {
            panic!(rt; "{}", turn.then);
        };
        assert!(rt; is_made(turn, &next), "{}", turn.then);
    }
}

/// The version after edits, where so many pairs are relabelled and there are so many regions, edges and areas.
fn updated(version: &Version, alloc: Global, edits: &str) -> Option<Version> {
    let next = after(version, alloc, edits)?;
    if all_numbers_of(&next) != [16, 7744, 14_784, 16] {
        return None;
    }
    Some(next.version)
}

/// The version of the largest map with 16 classes after an obstruction over the cell (1024, 1024) has come, and has gone
/// and come again 500 times, where each of these updates has the same numbers.
fn often_updated(alloc: Global) -> Option<Version> {
    let comes = "add 1 65535 unit 67141632 67141632 16384";
    let open = version_of(alloc, [2048, 2048], (16, "0"), &[])?;
    let mut version = updated(&open, alloc, comes)?;
    for _ in 0..500 {
        let open = updated(&version, alloc, "remove 1")?;
        version = updated(&open, alloc, comes)?;
    }
    Some(version)
}

#[test]
fn a_thousand_updates_of_the_largest_map(rt: HostRuntime) {
    let Some(version) = often_updated(rt.alloc()) else {
        panic!(rt; "an update has other numbers");
    };
    assert!(rt; passable_in(&version, 15) == Some(4_194_303));
}

/// The add of a unit with its middle in the middle of a cell.
fn unit_on(id: u32, [i, j]: [u16; 2], half: i32) -> Edit {
    let shape = Shape::Unit {
        x: Fixed::centre(i),
        z: Fixed::centre(j),
        half: Fixed::from_raw(half),
    };
    let mask = u16::MAX;
    Edit::Add {
        id,
        obstruction: Obstruction { shape, mask },
    }
}

/// A unit on each of the forty cells of the first row, and two on the cell (5, 5), of which the one of number 100 is the
/// larger, so that it reaches into the rows beside it.
fn crowd(alloc: Global) -> Result<Edits, NoMemory> {
    let mut edits = Edits::new(alloc);
    for i in 0..40u16 {
        edits.push(unit_on(u32::from(i), [i, 0], 16384))?;
    }
    edits.push(unit_on(50, [5, 5], 16384))?;
    edits.push(unit_on(100, [5, 5], 39321))?;
    Ok(edits)
}

/// What is left where the larger one is removed again.
fn crowd_without_one(alloc: Global) -> Option<Next> {
    let open = version_of(alloc, [40, 7], (1, "0"), &[])?;
    let edits = crowd(alloc).ok()?;
    let full = open.after(alloc, &edits).ok()?;
    after(&full.version, alloc, "remove 100")
}

#[test]
fn one_of_a_crowd_is_removed(rt: HostRuntime) {
    let Some(next) = crowd_without_one(rt.alloc()) else {
        panic!(rt; "no version");
    };
    assert!(rt; all_numbers_of(&next) == [0, 1, 0, 1]);
    assert!(rt; place_in(&next.version, [5, 5]) == Some((0, 0, 0)));
    assert!(rt; passable_in(&next.version, 0) == Some(239));
}

/// A unit on each cell of the first two of seven rows of forty cells, and a square over all cells of the first three.
fn covered_rows(alloc: Global) -> Option<Version> {
    let open = version_of(alloc, [40, 7], (1, "0"), &[])?;
    let mut edits = Edits::new(alloc);
    for id in 0..80u16 {
        edits
            .push(unit_on(u32::from(id), [id % 40, id / 40], 16384))
            .ok()?;
    }
    let full = open.after(alloc, &edits).ok()?.version;
    let square = "add 100 65535 square 1310720 98304 65536 0 1294336 81920";
    Some(after(&full, alloc, square)?.version)
}

/// What was under an obstruction stays blocked in each row, also where more stand there than are painted before it is looked
/// at what is left to paint.
#[test]
fn rows_below_a_removed_square_stay_blocked(rt: HostRuntime) {
    let Some(covered) = covered_rows(rt.alloc()) else {
        panic!(rt; "no version");
    };
    assert!(rt; passable_in(&covered, 0) == Some(4 * 40));
    let Some(next) = after(&covered, rt.alloc(), "remove 100") else {
        panic!(rt; "no version after it");
    };
    assert!(rt; passable_in(&next.version, 0) == Some(5 * 40));
    for i in 0..40u16 {
        for j in 0..3u16 {
            let region = u16::from(j == 2);
            assert!(rt;
                place_in(&next.version, [i, j]) == Some((0, region, u32::from(region))),
                "at ({i}, {j})"
            );
        }
    }
}

/// Whether the version has the row, with these numbers.
fn row_is(version: &Version, j: u16, numbers: [u16; 6]) -> bool {
    let size = version.size();
    if size.w != 6 || j >= size.h {
        return false;
    }
    let mut row = [0; 6];
    version.row_bits(j, 0, &mut row);
    row == numbers
}

/// The version of three rows with a wall for class 1 up to the second row, after a unit has come that blocks the cell
/// (4, 2) for both classes.
fn walled(alloc: Global) -> Option<Version> {
    let open = version_of(alloc, [6, 3], (2, "0"), &[wall_of([1, 2, 1, 2])])?;
    let next = after(&open, alloc, "add 1 3 unit 294912 163840 16384")?;
    Some(next.version)
}

#[test]
fn rows_have_a_bit_for_each_class(rt: HostRuntime) {
    let Some(version) = walled(rt.alloc()) else {
        panic!(rt; "no map");
    };
    assert!(rt; row_is(&version, 0, [0, 2, 2, 0, 0, 0]));
    assert!(rt; row_is(&version, 1, [0, 2, 2, 0, 0, 0]));
    assert!(rt; row_is(&version, 2, [0, 0, 0, 0, 3, 0]));
}

/// Whether the row has these numbers from a place on.
fn part_is(version: &Version, j: u16, from: u16, numbers: [u16; 4]) -> bool {
    let size = version.size();
    if size.w < 4 || from > size.w - 4 || j >= size.h {
        return false;
    }
    let mut part = [0; 4];
    version.row_bits(j, from, &mut part);
    part == numbers
}

#[test]
fn a_part_of_a_row_begins_at_its_place(rt: HostRuntime) {
    // the wall stands across the border of two chunks
    let walls = [wall_of([94, 97, 1, 2])];
    let Some(version) = version_of(rt.alloc(), [200, 3], (2, "0"), &walls) else {
        panic!(rt; "no map");
    };
    assert!(rt; part_is(&version, 0, 0, [0, 0, 0, 0]));
    assert!(rt; part_is(&version, 0, 92, [0, 0, 2, 2]));
    assert!(rt; part_is(&version, 0, 93, [0, 2, 2, 2]));
    assert!(rt; part_is(&version, 1, 95, [2, 2, 2, 0]));
    assert!(rt; part_is(&version, 2, 95, [0, 0, 0, 0]));
    assert!(rt; part_is(&version, 1, 196, [0, 0, 0, 0]));
}

/// How many tables of landmarks a class has. 0 where the map lacks the class.
fn tables_of(version: &Version, class: u8) -> usize {
    if class >= version.classes() {
        return 0;
    }
    match version.landmarks(Class::new(class)) {
        Some(tables) => tables.made(),
        None => 0,
    }
}

/// What the tables of a class say of the way between two cells of the map's column 0. None where it has no tables.
fn bound_in(version: &Version, class: u8, [from, to]: [u16; 2]) -> Option<u64> {
    if class >= version.classes() {
        return None;
    }
    let tables = version.landmarks(Class::new(class))?;
    Some(tables.at_least(Cell::new(0, from), Cell::new(0, to)))
}

/// Notes a search of a class from the cell (0, 0) that opened so many jump states, and makes the edits.
fn searched(
    version: &Version,
    alloc: Global,
    (class, opened): (u8, u64),
    edits: &str,
) -> Option<Version> {
    if class >= version.classes() {
        return None;
    }
    version.note_search(Class::new(class), Cell::new(0, 0), opened);
    let next = after(version, alloc, edits)?;
    Some(next.version)
}

/// A corridor that winds through 8 by 5 cells.
const SNAKE: &str = "......../#######./......../.#######/........";

// How many jump states searches open before the edits, and how many tables there are after these. A table of the snake
// costs eight jump states: an eighth of its cells, with a border of one cell. A class has at most eight.
const EARNINGS: [(u64, &str, usize); 6] = [
    (7, "", 0),
    (1, "", 1),
    (20, "", 3),
    (4, "add 1 65535 unit 98304 32768 16384", 4),
    (1_000_000, "remove 1", 8),
    (1_000_000, "", 8),
];

#[test]
fn searches_earn_tables_of_landmarks(rt: HostRuntime) {
    let Some(mut version) = drawn_for(rt.alloc(), SNAKE, (2, 3)) else {
        panic!(rt; "no map");
    };
    for (opened, edits, wanted) in EARNINGS {
        let Some(next) = searched(shared(&version), rt.alloc(), (0, opened), edits) else {
            panic!(rt; "no version");
        };
        version = next;
        assert!(rt;
            tables_of(&version, 0) == wanted && tables_of(&version, 1) == 0,
            "with {opened} and {edits}"
        );
    }
    // 18 straight steps along the corridor, each of twelve units.
    assert!(rt;
        bound_in(&version, 0, [0, 4]) == Some(18 * 12 * 5_451),
        "the way round"
    );
}

#[test]
fn tables_know_the_terrain_of_their_class(rt: HostRuntime) {
    let Some(version) = drawn_for(rt.alloc(), SNAKE, (2, 1)) else {
        panic!(rt; "no map");
    };
    // the corridor is open for class 1
    let Some(next) = searched(&version, rt.alloc(), (1, 17), "") else {
        panic!(rt; "no version");
    };
    let bound = bound_in(&next, 1, [0, 4]).unwrap_or(u64::MAX);
    assert!(rt; tables_of(&next, 0) == 0 && tables_of(&next, 1) == 2);
    assert!(rt; bound <= 4 * 12 * 5_451, "{bound}");
}

/// How many tables an open map of 1,600 by 1,600 cells has after each of four turns, where searches have earned two before
/// the first.
fn tables_by_turn(alloc: Global) -> Option<[usize; 4]> {
    let mut version = version_of(alloc, [1_600, 1_600], (1, "0"), &[])?;
    let mut tables = [0; 4];
    let mut opened = 2 * 320_800;
    for turn in 0..4 {
        version = searched(&version, alloc, (0, opened), "")?;
        tables[turn] = tables_of(&version, 0);
        opened = 0;
    }
    Some(tables)
}

/// A table of so many cells is more work than a turn may do for tables: one and a fifth of it.
#[test]
fn a_large_map_gets_a_table_by_parts(rt: HostRuntime) {
    let tables = tables_by_turn(rt.alloc());
    assert!(rt; tables == Some([0, 1, 2, 2]), "{tables:?}");
}

/// A class gets eight tables also where a side is the longest that a map may have.
#[test]
fn a_long_map_gets_all_tables(rt: HostRuntime) {
    let Some(version) = version_of(rt.alloc(), [2_048, 4], (1, "0"), &[]) else {
        panic!(rt; "no map");
    };
    let Some(next) = searched(&version, rt.alloc(), (0, 1_000_000), "") else {
        panic!(rt; "no version");
    };
    let tables = tables_of(&next, 0);
    assert!(rt; tables == 8, "{tables}");
}
