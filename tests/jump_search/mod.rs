//! The jump searches over small maps that are drawn as text, and over a wide open one.

use crate::fixtures::aims::Targets;
use crate::fixtures::counted::Counted;
use crate::fixtures::landmarks::add_table;
use crate::fixtures::maps::{block, drawn, drawn_for};
use crate::fixtures::rows::GridRows;
use crate::fixtures::searches::{Search, is_fit, is_found, search_of};
use crate::fixtures::texts::fields_of;
use class_planes::{PlaneRuns, Planes};
use jump_scan::CellRuns;
use jump_search::{
    CostlyEstimate, Estimate, Guided, JumpSearch, Marked, Pool, Question, TargetEstimate,
    jump_search, jump_search_with,
};
use landmarks::{Landmarks, MAX_TABLES};
use nav_types::{Aim, Cell, Class, Dir, NoMemory, Size, Ticks, View, step};
use navcell_grid::Grid;
use std::alloc::Global;
use std::marker::Brand;
use std::sync::ledger::{Blank, Ledger};
use std::test::Fail;

mod ways_out;

/// In each line the rows of a map from the first up, `#` impassable, the start and the targets, and then the end, the
/// cost and the waypoints of the answer, and how many jump states are opened. `tools/test_lines.py jumps` makes such a
/// line.
const TABLE: &str = "\
..../..../..../..../..../..../..../..../....;0,5;1,7;1,7;158218;1,6 1,7;3
......../....#.../#.#.#..#/...#...#/#.#.#.../.###....;6,3;1,3;1,3;644116;5,2 5,0 3,0 2,1 1,1 1,3;11
#...../..#.../......;3,1;2,2;2,2;131072;3,2 2,2;3
......./....###/#....#./...#.##;2,0;4,0 6,0 1,2 3,2;4,0;131072;4,0;4
..#.###..../.........../###.#......;4,1;10,1;10,1;393216;10,1;4
.../.../.../...;1,2;2,0;2,0;158218;2,1 2,0;3
........./.........;0,1;5,1;5,1;327680;5,1;2
....../##...#/....../...#..;3,0;0,0 3,0 3,2 5,3;3,0;0;;1
../../../../../../../../../../..;1,6;0,3 0,6;0,6;65536;0,6;2
.#....###.#/...#..#..##/..####..##./...###.#.../.#....##.#./..###.....#;9,5;10,2;10,2;393216;8,5 8,3 10,3 10,2;5
.../.../.../.../.../.../.../.../...;1,4;2,0 0,6;0,6;158218;0,5 0,6;4
../../##/../../.#/../../../../../.#;1,3;1,0 1,9;1,9;447508;0,4 0,6 1,7 1,9;5
#.##.#...../#....#....#/.......#..#/.......#.../..#......../.#..#.....#/#.#..#...../\
    ..#...#.#..;9,0;4,3 10,5;4,3;447508;8,1 6,1 6,2 5,3 4,3;10
......../......../......../......../........;5,0;2,0 4,3;2,0;196608;2,0;3
........../........../....#.....;7,0;8,1;8,1;92682;8,1;2
#...####./#.#####.#/#..#...#./.##....#./#...##.##/###....#./..#.##.#./.#####.#./.####..##/\
    ..#.#.##.;4,5;5,3 1,7 0,8 0,9;5,3;327680;3,5 3,3 5,3;9
.##../#..../#.#../#...#/...../.#..#/#....;2,1;4,3 3,6;3,6;393216;3,1 3,6;12
#..../#..../...../..#../.....;3,1;3,0 3,1 4,1 4,2;3,1;0;;1
.../.../.../#..;0,2;2,1;2,1;158218;1,1 2,1;4
..../.#../.#.#/..../..../..../#.../..../..#./..../...#;0,9;3,5;3,5;343582;1,8 1,7 3,5;5
..../..../....;3,0;0,0;0,0;196608;0,0;2
#..#...../..###..#./.#...##.#/##..#.#.#/#....####/..#..#.../..#..#.##/\
    .#.#..#.#;3,3;1,3 7,3 7,6 0,7;0,7;381972;2,4 1,4 1,5 0,6 0,7;10
../../../../../../../..;0,0;0,2;0,2;131072;0,2;2
...../...../...../....#/.#.../....#/...../.#.../...../.....;2,4;2,0 4,2;4,2;223754;3,3 3,2 4,2;5
..#./..#./##.#/.#../..../..#./.#../.#..;0,0;0,1 2,2 2,3 2,6;0,1;65536;0,1;2
../../.#/../../../../../..;1,5;1,5;1,5;0;;1
.....#./...###./#..#.../.##..../.#...../...#.../....#../......#;1,7;2,2 4,3;4,3;381972;2,6 2,4 3,4 4,3;5
....../....../....../....../....../....../....../....../....../......;4,1;3,5 5,5;3,5;289290;3,2 3,5;5
...#.../#..#..#/....##./......#/......./......./..#.##./#..#.../..##...;4,5;4,0 0,6 1,7 4,7;0,6;289290;1,5 0,6;6
....#/#.#../.#.#./##.../..#.#/..#.#;3,4;3,4;3,4;0;;1
.../.../.../#../..#/.../#../.../.../...;1,5;1,0 0,1 0,4 2,9;0,4;92682;0,4;3
....../....../#.....;2,0;0,1;0,1;158218;1,1 0,1;3
.../.#.;0,0;2,1;2,1;196608;2,0 2,1;3
...../...../...../...#./.#.../....#/...../...../...#./.##..;3,1;1,5;1,5;354826;2,2 2,5 1,5;6
..#..#./.......;0,0;0,0 4,0 4,1 6,1;0,0;0;;1
...../.#.../...../...../#...#/...#./...../...../##.../#..#.;4,1;3,8;3,8;540190;2,3 2,6 3,7 3,8;6
..#...../....#..#/##....../..#...../#..#.#../.#....#./....#...;0,6;3,1;3,1;578580;2,6 3,5 4,5 4,3 3,2 3,1;10
..#....../#......../.#....#../.#..#..../.....#.#./.#......./........./......###/.##....../.#.#...../\
    .#.......;1,6;5,2 6,2 2,3 2,10;2,3;262144;2,6 2,3;9
##.....#.#./.........../...#...#.../.#...#.#.##/.........../.#......###/....#..#..#/\
    .##.#......;2,1;6,2 8,6 3,7;6,2;289290;4,1 5,2 6,2;10
......#../..#....../.#......./....#...#/...#...../##......./.#...#.#./\
    .........;4,6;2,1 1,2 2,2 8,6;2,2;354826;3,5 2,5 2,2;16
..#....##./...##..##./........../..#....#../..#....#../.#..#..#../...#...#../#........./...#.#...#/.....#.##./\
    ........##/..#....#..;6,7;3,11;3,11;420362;4,7 4,9 3,10 3,11;10
#.........../##.##....#.#/...#...##.#./.....##..#..;11,0;6,1;6,1;354826;8,0 7,1 6,1;5
.#.../...../...../...../...#./...#./..#../...../...../...../...../.....;2,9;3,1 0,4;0,4;381972;0,7 0,4;6
.......#/.#...#.#/......../....#.#./.#....../......../......../........;2,1;1,7;1,7;420362;2,5 1,6 1,7;6
.##..../......./..#.###/......./#.#...#/.####../#....../\
    ......#;3,0;1,0 5,2 0,3 1,7;0,3;354826;3,1 1,1 0,2 0,3;11
#.#.##...##./.##.###.##.#/...#..#....#/.#...#.##.../##.....#..../#...##...#.#/..#........./.###...#..../\
    ....#..#..#./..##...#####/...##.#....#;8,0;3,2 11,7 5,9 5,10;11,7;709652;7,0 7,2 9,2 10,3 10,6 11,7;13
..#.##.#.#/.......#.#/..##.#.#../.....###../...##...#./##......../.#.....#../......####/\
    #..##.....;0,1;3,2 8,5 5,6 5,7;5,6;540190;1,2 1,3 2,4 2,5 3,6 5,6;15
.#.#..#..##./.###....##../......#.#.../.#.##...#.##/\
    ###.....#.#.;2,2;8,0 9,0 11,2 9,4;8,0;485898;4,2 5,1 7,1 7,0 8,0;9
.......##../.........../..#...#..../.........../.....#.#.../........#..;3,1;10,3;10,3;513044;5,3 10,3;9
.....#/....../.....#/....../....#./#....#/.....#/.....#/...#..;4,2;3,1 1,2 4,6 1,7;3,1;92682;3,1;5
........../.##.....#./.......#../......#.#./..###.#.../.##......./...#.#.###/........#./..###...../\
    .#.....#..;1,2;6,9;6,9;748042;2,3 5,3 5,5 6,5 6,9;10
..#./#.../..#./.#../#.../####/#.#./#..#/...#/.#..;1,2;3,2;3,2;262144;1,1 3,1 3,2;5
#.#...../....##../.#....../......../.......#/.#.....#/#..##..#;0,5;2,1 6,2;2,1;354826;0,4 1,3 2,3 2,1;7
..#.../#....#/..##../#....#/.....#/...#../.#....;1,3;5,0 1,5;1,5;131072;1,5;6
.#.#/..../.#../#..#/.#../#.../..../..../##.#;2,7;1,0 1,5 3,5 0,6;1,5;158218;1,6 1,5;6
#..#/..#./..../.##./..../#...;1,1;3,0 3,1;3,1;262144;1,2 3,2 3,1;5
#..#./#.##./..#../#..../...#./...../#..#./#..../#..#./...##/##.##/\
    .#..#;2,0;4,8;4,8;748042;1,0 1,3 2,4 2,5 4,5 4,8;13
#..#/..../..../..../..../..#./..../..../..../..../....;1,6;1,1 0,2 0,3 0,9;0,3;223754;0,5 0,3;6
#....../.####../###..../###.#../.#....#/....###/....###;5,0;2,4;2,4;458752;5,4 2,4;7
............/.###########/............/....#......./............/............/............/............/\
    ............/............;11,9;7,0;7,0;1500742;6,4 3,4 1,2 0,2 0,0 7,0;15
";

/// Whether the search in a pool that has served other maps answers as it should.
fn answers_in_pool(
    pool: &mut Pool,
    alloc: Global,
    map: &Grid,
    search: &Search<'_>,
) -> Result<bool, NoMemory> {
    let class = Class::new(0);
    let (start, aim) = (search.start, &search.targets);
    let runs = CellRuns::new(map);
    if !aim.rect.is_inside(runs.size()) || !is_fit(&runs, class, start, search.points, aim) {
        return Ok(false);
    }
    let question = Question {
        runs: &runs,
        class,
        start,
        aim,
    };
    let found = question.find(pool, alloc)?;
    Ok(is_found(search, &found) && answers_within(alloc, pool, &question, search, found.cost.0)?)
}

/// Whether a find within a greatest cost gives the answer at its cost, and none at one less.
fn answers_within<Q: JumpSearch>(
    alloc: Global,
    pool: &mut Pool,
    question: &Q,
    search: &Search<'_>,
    cost: u64,
) -> Result<bool, NoMemory> {
    let Some(found) = question.find_within(pool, alloc, cost)? else {
        return Ok(false);
    };
    let is_short = cost == 0 || question.find_within(pool, alloc, cost - 1)?.is_none();
    Ok(is_found(search, &found) && is_short)
}

/// Whether the search over the cells answers as it should, and so many jump states are opened, where they are counted in a
/// ledger.
fn answers_counted<L: Ledger>(
    alloc: Global,
    map: &Grid,
    search: &Search<'_>,
    opened: u64,
    blank: Blank,
) -> Result<bool, NoMemory> {
    let class = Class::new(0);
    let (start, aim) = (search.start, &search.targets);
    if !aim.rect.is_inside(map.size()) || !is_fit(map, class, start, search.points, aim) {
        return Ok(false);
    }
    let mut ticks = Ticks::<L>::new(blank);
    let traced = jump_search(alloc, map, class, start, aim, &mut ticks)?;
    Ok(traced.opened == opened && is_found(search, &traced.found))
}

/// The exact distances of the cells of a small map to the nearest one that is looked for.
#[derive(Drop)]
struct Exact {
    distances: [[u64; 16]; 16],
}

impl Exact {
    /// The distances of a class to the cells that the aim hits: sums of steps, lowered until none can be.
    fn of<A: Aim>(map: &Grid, class: Class, aim: &A) -> Exact {
        let mut exact = Exact {
            distances: [[1_000_000_000; 16]; 16],
        };
        'lower: while exact.lower(map, class, aim) {}
        exact
    }

    /// Lowers each distance to 0 where the aim hits, and to those beside and a step. Whether any was lowered.
    fn lower<A: Aim>(&mut self, map: &Grid, class: Class, aim: &A) -> bool {
        let size = map.size();
        let mut any = false;
        for j in 0..size.h {
            for i in 0..size.w {
                let cell = Cell::new(i, j);
                let mut least = self.at_least(cell);
                if aim.hits(size, cell) {
                    least = 0;
                }
                for dir in Dir::ALL {
                    if let Some(next) = step(map, class, cell, dir) {
                        least = least.min(self.at_least(next) + dir.cost());
                    }
                }
                any |= least < self.at_least(cell);
                self.distances[j as usize][i as usize] = least;
            }
        }
        any
    }
}

impl Estimate for Exact {
    ghost least = { λ exact cell. 0 };

    fn at_least(&self, cell: Cell) -> u64 {
        self.distances[cell.j as usize][cell.i as usize]
    }
}

/// How many runs a find asks for. None where it does not answer as it should.
fn asked_runs<Q: JumpSearch>(
    alloc: Global,
    pool: &mut Pool,
    runs: &Counted<'_, Grid>,
    question: &Q,
    search: &Search<'_>,
) -> Option<u32> {
    runs.reset();
    let found = question.find(pool, alloc).ok()?;
    is_found(search, &found).then_some(runs.runs())
}

/// All tables of landmarks of class 0 of a map, begun near a cell.
fn tables_of(alloc: Global, map: &Grid, near: Cell) -> Option<Landmarks> {
    let mut tables = Landmarks::none(alloc, map.size()).ok()?;
    for _ in 0..MAX_TABLES {
        add_table(alloc, &mut tables, map, near).ok()?;
    }
    Some(tables)
}

/// What tables of landmarks tell of the way to some cells.
fn marked<'a>(tables: &'a Landmarks, aim: &Targets) -> Option<Marked<'a>> {
    let (first, others) = aim.cells.as_slice().split_first()?;
    let mut span = tables.span_of(*first);
    for cell in others {
        span = tables.widened(&span, *cell);
    }
    Some(Marked {
        rect: aim.rect,
        tables,
        span,
    })
}

/// How many runs the search of a line of `TABLE` asks for, by octile and by exact distances, and by tables of landmarks.
/// None where one of them does not answer as the line says, or what it counts is not what the first does.
fn asked_by_estimates(alloc: Global, pool: &mut Pool, line: &str) -> Option<[u32; 3]> {
    let [map, start, targets, end, cost, points, opened] = fields_of(line);
    let opened: u64 = opened.parse().ok()?;
    let search = search_of(alloc, [start, targets, end, cost, points])?;
    let map = drawn(alloc, map)?;
    let class = Class::new(0);
    let (start, aim) = (search.start, &search.targets);
    let runs = Counted::new(&map);
    if !aim.rect.is_inside(runs.size()) || !is_fit(&runs, class, start, search.points, aim) {
        return None;
    }
    let question = Question {
        runs: &runs,
        class,
        start,
        aim,
    };
    let plain = asked_runs(alloc, pool, &runs, &question, &search)?;
    if pool.opened() > opened {
        return None;
    }
    let tables = tables_of(alloc, &map, start)?;
    let past = CostlyEstimate::Past(marked(&tables, aim)?);
    let ahead = &TargetEstimate::Costly(past);
    let guided = Guided { question, ahead };
    let past = asked_runs(alloc, pool, &runs, &guided, &search)?;
    if pool.opened() > opened {
        return None;
    }
    let ahead = &Exact::of(&map, class, aim);
    let question = guided.question;
    let guided = Guided { question, ahead };
    let fewer = asked_runs(alloc, pool, &runs, &guided, &search)?;
    let traced = guided.trace(pool, alloc).ok()?;
    (is_found(&search, &traced.found) && traced.opened == opened).then_some([plain, fewer, past])
}

#[test]
fn answers_by_estimates_that_know_walls_are_the_same_for_fewer_runs(
    rt: HostRuntime,
) -> Result<(), Fail> {
    let mut pool = Pool::new(rt.alloc())?;
    let mut asked = [0, 0, 0];
    for line in TABLE.lines() {
        let runs = asked_by_estimates(rt.alloc(), &mut pool, line);
        assert!(rt; runs.is_some(), "{line}");
        if let Some([plain, fewer, past]) = runs {
            asked = [asked[0] + plain, asked[1] + fewer, asked[2] + past];
        }
    }
    assert!(rt; asked[1] < asked[0] && asked[2] < asked[0], "{asked:?}");
    Ok(())
}

/// How many runs a find asks for on an open map of 1024 by 1024 where its start is looked for. None where it does not
/// answer as it should.
fn asked_at_target(alloc: Global) -> Option<u32> {
    let search = search_of(alloc, ["5,7", "5,7 9,9", "5,7", "0", ""])?;
    let map = Grid::new(alloc, Size::new(1024, 1024)?).ok()?;
    let runs = Counted::new(&map);
    let question = Question {
        runs: &runs,
        class: Class::new(0),
        start: search.start,
        aim: &search.targets,
    };
    let mut pool = Pool::new(alloc).ok()?;
    asked_runs(alloc, &mut pool, &runs, &question, &search)
}

#[test]
fn a_start_that_is_looked_for_is_found_without_a_run(rt: HostRuntime) {
    assert!(rt; asked_at_target(rt.alloc()) == Some(0));
}

/// Whether a line of `TABLE` says what the answer is. None where it is not in the form of the table.
fn answers_as_the_line_says(alloc: Global, pool: &mut Pool, line: &str) -> Option<bool> {
    let [map, start, targets, end, cost, points, opened] = fields_of(line);
    let opened = opened.parse().ok()?;
    let search = search_of(alloc, [start, targets, end, cost, points])?;
    let map = drawn(alloc, map)?;
    let again = answers_in_pool(pool, alloc, &map, &search).ok()?;
    let anew = answers_counted::<Brand>(alloc, &map, &search, opened, Blank::new(1)).ok()?;
    Some(again && anew)
}

#[test]
fn answers_as_the_table_says(rt: HostRuntime) -> Result<(), Fail> {
    let mut pool = Pool::new(rt.alloc())?;
    for line in TABLE.lines() {
        assert!(rt;
            answers_as_the_line_says(rt.alloc(), &mut pool, line) == Some(true),
            "{line}"
        );
    }
    Ok(())
}

/// Whether both searches for class 1 answer as they should over planes of some classes.
fn answers_by_planes(
    alloc: Global,
    map: &GridRows<'_>,
    planes: &Planes,
    search: &Search<'_>,
) -> Result<bool, NoMemory> {
    let class = Class::new(1);
    let (start, aim) = (search.start, &search.targets);
    let runs = PlaneRuns::new(map, planes, class);
    if runs.classes() < 2 {
        return Ok(false);
    }
    if !aim.rect.is_inside(runs.size()) || !is_fit(&runs, class, start, search.points, aim) {
        return Ok(false);
    }
    let question = Question {
        runs: &runs,
        class,
        start,
        aim,
    };
    let mut pool = Pool::new(alloc)?;
    let found = question.find(&mut pool, alloc)?;
    let traced = question.trace(&mut pool, alloc)?;
    Ok(is_found(search, &found) && is_found(search, &traced.found))
}

/// Whether both searches over planes of the classes of the mask answer as a line of `TABLE` says, whose map is drawn for
/// class 1 alone, and class 1 has a plane where the mask says so. None where the line is not in the form of the table.
fn answers_with_some_planes(alloc: Global, line: &str, mask: u16) -> Option<bool> {
    let [map, start, targets, end, cost, points, _] = fields_of(line);
    let search = search_of(alloc, [start, targets, end, cost, points])?;
    let grid = drawn_for(alloc, map, 2)?;
    let map = GridRows { grid: &grid };
    let Ok(planes) = Planes::build(alloc, &map, mask) else {
        return None;
    };
    let is_wanted = planes.plane(Class::new(1)).is_some() == (mask & 2 == 2);
    let answers = answers_by_planes(alloc, &map, &planes, &search).ok()?;
    Some(is_wanted && answers)
}

#[test]
fn a_class_without_a_plane_is_searched_too(rt: HostRuntime) {
    for line in TABLE.lines() {
        for mask in [1, 2] {
            assert!(rt;
                answers_with_some_planes(rt.alloc(), line, mask) == Some(true),
                "{mask} {line}"
            );
        }
    }
}

/// The same over runs that count what the searches alone ask.
fn answers_over<L: Ledger>(
    alloc: Global,
    runs: &Counted<'_, Grid>,
    search: &Search<'_>,
    opened: u64,
    blank: Blank,
) -> Result<bool, NoMemory> {
    let class = Class::new(0);
    let (start, aim) = (search.start, &search.targets);
    if !aim.rect.is_inside(runs.size()) || !is_fit(runs, class, start, search.points, aim) {
        return Ok(false);
    }
    runs.reset();
    let question = Question {
        runs,
        class,
        start,
        aim,
    };
    let mut ticks = Ticks::<L>::new(blank);
    let mut pool = Pool::new(alloc)?;
    let found = question.jump_find_in(&mut pool, alloc, &mut ticks)?;
    if !is_found(search, &found) {
        return Ok(false);
    }
    let traced = jump_search_with(alloc, &question, &mut ticks)?;
    Ok(traced.opened == opened && is_found(search, &traced.found))
}

/// Whether the two searches from the first to the last cell of an open map of 1024 by 1024 answer as they should and ask
/// together for fewer than 1000 cells and 100 runs. None where there is no memory.
fn asks_few_cells(alloc: Global) -> Option<bool> {
    let end = "1023,1023";
    let search = search_of(alloc, ["0,0", end, end, "94813686", end])?;
    let map = Grid::new(alloc, Size::new(1024, 1024)?).ok()?;
    let runs = Counted::new(&map);
    let answers = answers_over::<Brand>(alloc, &runs, &search, 2, Blank::new(1)).ok()?;
    Some(answers && runs.cells() < 1000 && runs.runs() < 100)
}

#[test]
fn searches_of_a_wide_map_ask_few_cells(rt: HostRuntime) {
    assert!(rt; asks_few_cells(rt.alloc()) == Some(true));
}

/// A map of 700 by 3 cells whose middle row can be passed at the columns 100 and 612 alone, which lie 512 apart.
fn two_gates(alloc: Global) -> Option<Grid> {
    let mut map = Grid::new(alloc, Size::new(700, 3)?).ok()?;
    for i in 0..700 {
        if i != 100 && i != 612 {
            block(&mut map, Cell::new(i, 1));
        }
    }
    block(&mut map, Cell::new(300, 2));
    Some(map)
}

/// Whether the searches go from the first cell to the last by the second gate. None where there is no memory.
fn passes_the_second_gate(alloc: Global) -> Option<bool> {
    let end = "699,2";
    let search = search_of(alloc, ["0,0", end, end, "45940736", "612,0 612,2 699,2"])?;
    let map = two_gates(alloc)?;
    let mut pool = Pool::new(alloc).ok()?;
    let again = answers_in_pool(&mut pool, alloc, &map, &search).ok()?;
    let anew = answers_counted::<Brand>(alloc, &map, &search, 6, Blank::new(1)).ok()?;
    Some(again && anew)
}

#[test]
fn cells_512_apart_are_two(rt: HostRuntime) {
    assert!(rt; passes_the_second_gate(rt.alloc()) == Some(true));
}

/// How many diagonal runs that no number of steps ends a find of ten steps asks for on an open map of 1024 by 1024. None
/// where it does not answer as it should.
fn endless_runs(alloc: Global) -> Option<u32> {
    let end = "510,503";
    let search = search_of(alloc, ["500,500", end, end, "736798", "503,503 510,503"])?;
    let map = Grid::new(alloc, Size::new(1024, 1024)?).ok()?;
    let runs = Counted::new(&map);
    let question = Question {
        runs: &runs,
        class: Class::new(0),
        start: search.start,
        aim: &search.targets,
    };
    let mut pool = Pool::new(alloc).ok()?;
    asked_runs(alloc, &mut pool, &runs, &question, &search)?;
    Some(runs.endless())
}

#[test]
fn a_short_path_on_open_ground_scans_no_run_to_the_border(rt: HostRuntime) {
    assert!(rt; endless_runs(rt.alloc()) == Some(0));
}
