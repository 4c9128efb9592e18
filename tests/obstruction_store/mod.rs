use fixed_point::Fixed;
use nav_types::{NoMemory, Rect, Size};
use obstruction_shapes::{Obstruction, Shape, check};
use obstruction_store::{AddRefusal, Store, all_fit_after_add, all_fit_in_empty};
use std::alloc::Global;
use std::test::Fail;

/// A length of so many quarters of a navcell.
fn quarters(count: i16) -> Fixed {
    Fixed::from_raw(i32::from(count) * 16384)
}

/// A unit with its middle at (`x`, `z`), all in quarters of a navcell.
fn unit([x, z, half]: [i16; 3]) -> Shape {
    Shape::Unit {
        x: quarters(x),
        z: quarters(z),
        half: quarters(half),
    }
}

/// Different numbers for different n, far from their order.
fn scattered(n: u32) -> u32 {
    n.wrapping_mul(2_654_435_761)
}

#[test]
fn no_more_than_65536_stand(rt: HostRuntime) -> Result<(), Fail> {
    let small = Obstruction {
        shape: unit([6, 2, 1]),
        mask: 1,
    };
    let mut store = Store::new(rt.alloc())?;
    for n in 0..65_536 {
        assert!(rt; store.add(scattered(n), small) == Ok(()));
    }
    assert!(rt; store.add(scattered(65_536), small) == Err(AddRefusal::StoreFull));
    assert!(rt; store.add(scattered(9), small) == Err(AddRefusal::DuplicateId));
    assert!(rt; store.count() == 65_536 && store.remove(scattered(7)) == Ok(small));
    assert!(rt; store.add(scattered(65_536), small) == Ok(()));
    assert!(rt; store.count() == 65_536 && store.get(scattered(7)).is_none());
    assert!(rt; store.get(scattered(65_536)) == Some(&small));
    Ok(())
}

/// The store of those shapes that fit, each under its number.
fn fitting(alloc: Global, shapes: &[(u32, [i16; 3])], size: Size) -> Result<Store, NoMemory> {
    all_fit_in_empty();
    all_fit_after_add();
    let mut store = Store::new(alloc)?;
    for &(id, numbers) in shapes {
        if let Ok(shape) = check(unit(numbers), size) {
            let Ok(()) = store.add(id, Obstruction { shape, mask: 1 }) else {
                return Err(NoMemory);
            };
        }
    }
    Ok(store)
}

// With no clearance 1 reaches no middle of a cell, 3 reaches the cell 5,4, 7 the cell 1,0 and 9 the cells 1,0 and 2,0.
// With a clearance of one navcell 3, 7 and 9 reach the columns 3 to 7, 0 to 3 and 0 to 4, and the rows 2 to 6, 0 to 2 and
// 0 to 2.
const UNITS: [(u32, [i16; 3]); 4] = [
    (9, [8, 2, 1]),
    (7, [6, 2, 1]),
    (3, [22, 18, 1]),
    (1, [0, 0, 0]),
];

/// On 8 by 8 cells the first and the last column and the first and the last row of a rectangle, a clearance in quarters of a
/// navcell, and the numbers of the units that touch it.
const TOUCHING: [([u16; 4], i16, &[u32]); 6] = [
    ([1, 1, 0, 0], 0, &[7, 9]),
    ([2, 4, 0, 8], 0, &[9]),
    ([3, 4, 1, 3], 0, &[]),
    ([3, 4, 1, 3], 4, &[3, 7, 9]),
    ([0, 7, 0, 7], 0, &[3, 7, 9]),
    ([5, 4, 0, 7], 4, &[]),
];

#[test]
fn what_touches_a_rectangle(rt: HostRuntime) -> Result<(), Fail> {
    let size = Size::new(8, 8).ok_or("size")?;
    let store = fitting(rt.alloc(), &UNITS, size)?;
    for ([i0, i1, j0, j1], clearance, wanted) in TOUCHING {
        let rect = Rect { i0, j0, i1, j1 };
        let ids = store.touching(rt.alloc(), rect, quarters(clearance), size)?;
        assert!(rt; ids.as_slice() == wanted);
    }
    Ok(())
}
