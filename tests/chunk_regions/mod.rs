use crate::fixtures::counted::Counted;
use crate::fixtures::labelling::labelled;
use crate::fixtures::maps::{block, drawn};
use chunk_regions::{ChunkBits, Labels, relabel};
use nav_types::{Cell, Chunk, NoMemory, Size, Ticks};
use navcell_grid::Grid;
use std::alloc::Global;
use std::marker::Brand;
use std::sync::ledger::{Blank, Ledger};

/// The first chunk of a map.
const FIRST: Chunk = Chunk { cj: 0, ci: 0 };

// The rows of one chunk from the first row up, joined by `/`, with `#` for an impassable cell; then the
// region numbers in the order of cells, as `Cells` of `examples/check.py` has them.
const CHUNKS: [(&str, &str); 8] = [
    (
        "..#.....#./....#..#../#..#....../#..##.#.../#...###..#/....####../.#.#..##../##..#.....",
        "1 1 0 1 1 1 1 1 0 1 1 1 1 1 0 1 1 0 1 1 0 1 1 0 1 1 1 1 1 1 0 1 1 0 0 1 0 1 1 1 0 1 1 1 0 0 0 1 1 0 1 1 1 1 0 0 0 0 1 1 1 0 1 0 1 1 0 0 1 1 0 0 1 1 0 1 1 1 1 1",
    ),
    (
        ".#./##./.##/###/###/##./##./###/#../#.#/..#/##./###/###",
        "1 0 2 0 0 2 3 0 0 0 0 0 0 0 0 0 0 4 0 0 4 0 0 0 0 5 5 0 5 0 5 5 0 0 0 6 0 0 0 0 0 0",
    ),
    ("#/#/#/./#/#/#/./././#/#/.", "0 0 0 1 0 0 0 2 2 2 0 0 3"),
    (
        ".#..##..#..###/##..###.######/.###.###.####./#...#####.##.#",
        "1 0 2 2 0 0 3 3 0 4 4 0 0 0 0 0 2 2 0 0 0 3 0 0 0 0 0 0 5 0 0 0 6 0 0 0 7 0 0 0 0 8 0 9 9 9 0 0 0 0 0 10 0 0 11 0",
    ),
    (
        "##....##/#.##.#.#/.####.../.#.#.##./.#...#.#/#...####/#....#.#/#......./.##.....",
        "0 0 1 1 1 1 0 0 0 2 0 0 1 0 3 0 4 0 0 0 0 3 3 3 4 0 5 0 5 0 0 3 4 0 5 5 5 0 6 0 0 5 5 5 0 0 0 0 0 5 5 5 5 0 5 0 0 5 5 5 5 5 5 5 7 0 0 5 5 5 5 5",
    ),
    (
        "#../.#./#.#/..#/.#./..#/.#./.../#../.../#.#/.#./##./..#",
        "0 1 1 2 0 1 0 3 0 3 3 0 3 0 4 3 3 0 3 0 3 3 3 3 0 3 3 3 3 3 0 3 0 5 0 6 0 0 6 7 7 0",
    ),
    (
        "##..##.#./.#.#..#../...##....",
        "0 0 1 1 0 0 2 0 3 1 0 1 0 3 3 0 3 3 1 1 1 0 0 3 3 3 3",
    ),
    ("###./####", "0 0 0 1 0 0 0 0"),
];

/// Whether the numbers of the labels' cells are those of the text, in the order of cells.
fn are_numbers(labels: &Labels, text: &str) -> bool {
    let rect = labels.rect();
    let mut words = text.split_whitespace();
    for j in rect.j0..=rect.j1 {
        for i in rect.i0..=rect.i1 {
            let wanted = words.next().unwrap_or("").parse();
            if wanted != Ok(labels.at(Cell::new(i, j))) {
                return false;
            }
        }
    }
    words.next().is_none()
}

/// Whether the regions of a map's first chunk have these numbers. None where it is no map, or there is no memory.
fn has_regions(alloc: Global, rows: &str, numbers: &str) -> Option<bool> {
    let map = drawn(alloc, rows)?;
    let labels = labelled(alloc, &map, FIRST)?;
    Some(are_numbers(&labels, numbers))
}

#[test]
fn chunks_have_their_regions(rt: HostRuntime) {
    for (rows, numbers) in CHUNKS {
        assert!(rt;
            has_regions(rt.alloc(), rows, numbers) == Some(true),
            "in {rows}"
        );
    }
}

/// How a test's chunk of 96 by 96 navcells looks.
#[derive(Clone, Copy)]
enum Look {
    Open,
    Comb,
    Random,
    Chequered,
    Halves,
}

/// A map of one whole chunk: open, a comb whose teeth stand on its first row, five cells of eight passable at random,
/// a chequered one, or two halves that a wall parts on even rows west of column 64 and on odd rows east of it.
fn whole_chunk(alloc: Global, look: Look) -> Option<Grid> {
    let mut map = Grid::new(alloc, Size::new(96, 96)?).ok()?;
    let mut noise = 12345u32;
    for j in 0..96u16 {
        for i in 0..96u16 {
            noise = noise.wrapping_mul(1_103_515_245).wrapping_add(12345) & 0x7fff_ffff;
            let passable = match look {
                Look::Open => true,
                Look::Comb => j == 0 || i % 2 == 0,
                Look::Random => (noise >> 16) % 8 >= 3,
                Look::Chequered => (i + j) % 2 == 0,
                Look::Halves => i != 63 + j % 2,
            };
            if !passable {
                block(&mut map, Cell::new(i, j));
            }
        }
    }
    Some(map)
}

// How a whole chunk looks, with its number of regions, the first cell of the last one, the number of the last cell
// and the sum of all numbers.
const WHOLE: [(Look, u16, (u16, u16), u16, u64); 5] = [
    (Look::Open, 1, (0, 0), 1, 9216),
    (Look::Comb, 1, (0, 0), 0, 4656),
    (Look::Random, 183, (90, 95), 0, 84776),
    (Look::Chequered, 4608, (95, 95), 4608, 10_619_136),
    (Look::Halves, 2, (64, 0), 2, 12_144),
];

/// The sum of the numbers of all the labels' cells.
fn sum_of(labels: &Labels) -> u64 {
    let rect = labels.rect();
    let mut sum = 0u64;
    for j in rect.j0..=rect.j1 {
        for i in rect.i0..=rect.i1 {
            sum = sum.saturating_add(u64::from(labels.at(Cell::new(i, j))));
        }
    }
    sum
}

/// The number of a cell, and the first cell of the region of so many; none where the labels have no such cell or region.
fn corners_of(labels: &Labels, cell: Cell, region: u16) -> Option<(u16, Cell)> {
    let rect = labels.rect();
    if rect.i0 <= cell.i
        && cell.i <= rect.i1
        && rect.j0 <= cell.j
        && cell.j <= rect.j1
        && 1 <= region
        && region <= labels.count()
    {
        Some((labels.at(cell), labels.first(region)))
    } else {
        None
    }
}

/// Whether a line of `WHOLE` says what the regions are, and each cell is asked for once at most.
fn is_whole(
    alloc: Global,
    (look, count, last, corner, sum): (Look, u16, (u16, u16), u16, u64),
) -> Option<bool> {
    let map = whole_chunk(alloc, look)?;
    let counted = Counted::new(&map);
    let labels = labelled(alloc, &counted, FIRST)?;
    let corners = corners_of(&labels, Cell::new(95, 95), count);
    Some(
        counted.cells() <= 9216
            && labels.count() == count
            && corners == Some((corner, Cell::new(last.0, last.1)))
            && sum_of(&labels) == sum,
    )
}

#[test]
fn whole_chunks_have_their_regions(rt: HostRuntime) {
    for line in WHOLE {
        assert!(rt; is_whole(rt.alloc(), line) == Some(true));
    }
}

/// The rows of a chunk, the number of a row that changes, what it changes to, the region numbers that are then in the order
/// of cells, and whether the first cells of the regions are those of before.
type Change = (&'static str, u16, &'static str, &'static str, bool);

// Where a row comes to have more runs of passable cells, where it comes to have fewer, and where all that
// changes are the first row or the last.
const CHANGES: [Change; 4] = [
    (
        "..#../#####/.#.#./.....",
        1,
        "#.#.#",
        "1 1 0 2 2 0 1 0 2 0 3 0 3 0 3 3 3 3 3 3",
        true,
    ),
    (
        "..#../#.#.#/.#.#./.....",
        1,
        "#####",
        "1 1 0 2 2 0 0 0 0 0 3 0 3 0 3 3 3 3 3 3",
        true,
    ),
    (
        "..#../#.#.#/.#.#./.....",
        0,
        "#####",
        "0 0 0 0 0 0 1 0 2 0 3 0 3 0 3 3 3 3 3 3",
        false,
    ),
    (
        "..#../#.#.#/.#.#./.....",
        3,
        "##.##",
        "1 1 0 2 2 0 1 0 2 0 3 0 4 0 5 0 0 4 0 0",
        false,
    ),
];

/// The bits of a chunk of which one row is drawn so, where `#` is an impassable cell, and the others are clear.
fn bits_of(row: u16, drawn: &str) -> ChunkBits {
    let mut bits = 0u128;
    for (column, tile) in drawn.bytes().enumerate() {
        if tile != b'#' {
            bits |= 1 << column;
        }
    }
    let mut chunk = ChunkBits::new();
    chunk.set_row(row, bits);
    chunk
}

/// The labels after a row has changed, where the work is counted in a ledger of its own.
fn changed_row<L: Ledger>(
    alloc: Global,
    before: &Labels,
    row: u16,
    drawn: &str,
    blank: Blank,
) -> Result<Labels, NoMemory> {
    let mut ticks = Ticks::<L>::new(blank);
    relabel(
        alloc,
        before,
        row,
        row + 1,
        &bits_of(row, drawn),
        &mut ticks,
    )
}

/// Whether a change of a chunk's row makes of its regions what it says. None where there is no map, or no memory.
fn has_changed(alloc: Global, (rows, row, changed, numbers, same): Change) -> Option<bool> {
    let map = drawn(alloc, rows)?;
    let before = labelled(alloc, &map, FIRST)?;
    let labels = changed_row::<Brand>(alloc, &before, row, changed, Blank::new(1)).ok()?;
    Some(are_numbers(&labels, numbers) && labels.has_firsts_of(&before) == same)
}

#[test]
fn a_changed_row_changes_the_regions(rt: HostRuntime) {
    for change in CHANGES {
        assert!(rt;
            has_changed(rt.alloc(), change) == Some(true),
            "row {} of {}",
            change.1,
            change.0
        );
    }
}
