//! Finds the paths of a group by one finder, and leads the group by a flow field: cargo run --example finders
use pathserve::{fixed, Class, Error, Finder, Goal, Outcome, Post, PostedMatch, Reply, NAVCELL};

const WIDTH: usize = 12;
const HEIGHT: usize = 8;
/// How far each step of a field leads, by its number: none, N, E, S, W, NE, SE, SW, NW, and where a unit stays.
const WAYS: [(isize, isize); 10] =
    [(0, 0), (0, 1), (1, 0), (0, -1), (-1, 0), (1, 1), (1, -1), (-1, -1), (-1, 1), (0, 0)];

fn middle(of: usize) -> i32 {
    of as i32 * NAVCELL + NAVCELL / 2
}

fn main() -> Result<(), Error> {
    let mut game = PostedMatch::open(WIDTH as u32, HEIGHT as u32, 1, &[Class::new("infantry", fixed(0.5))], &[])?;
    let (x, z, one) = (fixed(6.0), fixed(3.0), fixed(1.0));
    game.post(&[Post::AddSquare { caller: 0, id: 1, mask: 1, x, z, ux: one, uz: 0, hw: fixed(0.5), hh: fixed(2.0) }])?;
    game.end_turn()?;
    let mut view = game.view()?;
    drop(game);

    // its paths, one by one and all at once
    let goal = Goal::Point { x: fixed(10.5), z: fixed(3.5) };
    let units = [(1, 1), (4, 4), (1, 7)];
    let order = |(i, j)| goal.path(0, 0, middle(i), middle(j));
    let asked = [order(units[0]), order(units[1]), order(units[2]), Post::Region { caller: 0, class: 0, x, z }];
    let mut finder = Finder::open()?;
    let found = finder.find_all(&mut view, &asked)?;
    for (place, (post, reply)) in asked.iter().zip(&found).enumerate() {
        let alone = view.find(post)?;
        assert_eq!(finder.find(&mut view, post)?, alone);
        assert_eq!(*reply, Reply { post: place as u32, ..alone });
    }
    assert_eq!(finder.find_all(&mut view, &[])?, []);
    assert_eq!(finder.find(&mut view, &Post::Remove { caller: 0, id: 1 }), Err(Error::BadValue));

    // its field
    let (mut steps, mut distances) = ([0; WIDTH * HEIGHT], [0; WIDTH * HEIGHT]);
    view.field(&asked[0], &mut steps, &mut distances)?;
    for ((i, j), reply) in units.into_iter().zip(&found) {
        let Outcome::AtGoal(path) = &reply.outcome else { panic!("the goal is in reach") };
        let (start, mut at, mut count) = (j * WIDTH + i, j * WIDTH + i, 0);
        while steps[at] != 9 {
            let (east, north) = WAYS[usize::from(steps[at])];
            at = at.wrapping_add_signed(north * WIDTH as isize + east);
            count += 1;
        }
        assert_eq!(path.cost, distances[start]);
        assert_eq!((at % WIDTH, at / WIDTH), (usize::from(path.end.i), usize::from(path.end.j)));
        let mut kept = path.waypoints.clone();
        view.smooth(0, path.start, &mut kept)?;
        assert!(kept.len() < 2 || !view.clear(0, path.start, path.end));
        println!(
            "unit {i},{j}: cost {}, {count} steps, {} waypoints, smoothed {}",
            path.cost,
            path.waypoints.len(),
            kept.len()
        );
    }
    Ok(())
}
