use crate::fixtures::labelling::labelled;
use crate::fixtures::maps::drawn_from;
use nav_types::{Cell, Chunk};
use navcell_grid::Grid;
use region_edges::{ChunkSide, Edges, between};
use std::alloc::Global;

/// The chunk on that side of the first chunk.
fn beyond(side: ChunkSide) -> Chunk {
    match side {
        ChunkSide::East => Chunk { cj: 0, ci: 1 },
        ChunkSide::North => Chunk { cj: 1, ci: 0 },
    }
}

/// The edges of the map's first chunk and the one on that side. None where the map has no such chunk, or there is no
/// memory.
fn crossing(alloc: Global, map: &Grid, side: ChunkSide) -> Option<Edges> {
    let Some(here) = labelled(alloc, map, Chunk { cj: 0, ci: 0 }) else {
        return None;
    };
    let Some(there) = labelled(alloc, map, beyond(side)) else {
        return None;
    };
    between(alloc, &here, &there, side).ok()
}

// The side, the part round the border with the first row first, and the edges.
const BORDERS: [(ChunkSide, &str, &[(u16, u16)]); 11] = [
    (ChunkSide::East, "......", &[(1, 1)]),
    (ChunkSide::East, "...#../....#.", &[]),
    (ChunkSide::East, "....##/####..", &[]),
    (ChunkSide::East, "...#../......", &[(1, 1)]),
    (ChunkSide::East, "....../####../......", &[(1, 1), (2, 1)]),
    (
        ChunkSide::East,
        ".#####/.#..../.#####/....../......",
        &[(1, 2), (2, 1)],
    ),
    // two regions meet in the first row and in the last, and one in between meets the second of them
    (
        ChunkSide::East,
        "....../...#../..#.../...#../......",
        &[(1, 1), (2, 1)],
    ),
    (ChunkSide::North, ".#/.#/.#/.#/#./#.", &[]),
    (
        ChunkSide::North,
        "..#/..#/..#/.#./.#./...",
        &[(1, 1), (2, 1)],
    ),
    (
        ChunkSide::North,
        "...../###../#.#../#.#../#.#../#.#..",
        &[(1, 2), (2, 1)],
    ),
    (
        ChunkSide::North,
        "#######/#######/#######/...#.../.#....#",
        &[(1, 1), (1, 2), (2, 2)],
    ),
];

/// Whether there are these edges on a map of which the rows of text are the part round the border: the last four columns
/// of the first chunk and the first of the one east of it, or so many rows. All that lies before them is impassable. None
/// where it is no map, or there is no memory.
fn has_edges(alloc: Global, side: ChunkSide, text: &str, pairs: &[(u16, u16)]) -> Option<bool> {
    let corner = match side {
        ChunkSide::East => Cell::new(92, 0),
        ChunkSide::North => Cell::new(0, 92),
    };
    let map = drawn_from(alloc, corner, text)?;
    let edges = crossing(alloc, &map, side)?;
    Some(edges.as_slice() == pairs)
}

#[test]
fn borders_have_their_edges(rt: HostRuntime) {
    for (side, text, pairs) in BORDERS {
        assert!(rt;
            has_edges(rt.alloc(), side, text, pairs) == Some(true),
            "in {text}"
        );
    }
}
