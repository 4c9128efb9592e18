use open_heap::OpenHeap;
use std::test::Fail;

/// Pushes the key, or lowers it where the list has it with an estimate that is greater.
fn put(heap: &mut OpenHeap, key: u32, estimate: u64) -> bool {
    let Some(old) = heap.get(key) else {
        return heap.push(key, estimate).is_ok();
    };
    if estimate < old {
        return heap.lower(key, estimate).is_ok();
    }
    false
}

/// Whether keys come out of the list so, and nothing is left.
fn gives(heap: &mut OpenHeap, keys: &[u32]) -> bool {
    for key in keys {
        let Some(first) = heap.peek_least() else {
            return false;
        };
        let Some(entry) = heap.pop_least() else {
            return false;
        };
        if first != entry || entry.key != *key {
            return false;
        }
    }
    heap.peek_least().is_none() && heap.pop_least().is_none() && heap.is_empty()
}

#[test]
fn keys_come_out_by_estimate(rt: HostRuntime) -> Result<(), Fail> {
    let mut heap = OpenHeap::new(rt.alloc())?;
    for (key, estimate) in [
        (0, 700),
        (1, 300_000),
        (2, 65_536),
        (3, 300_001),
        (4, 9_000_000),
        (5, 0),
        (6, 10_000_000),
        (7, 65_535),
        (4, 299_999),
        (7, 50),
    ] {
        assert!(rt; put(&mut heap, key, estimate));
    }
    assert!(rt; heap.len() == 8);
    assert!(rt; gives(&mut heap, &[5, 7, 0, 2, 4, 1, 3, 6]));
    Ok(())
}

/// An entry before all that came out is the next, and a list that was cleared is as a new one.
#[test]
fn keys_go_in_between(rt: HostRuntime) -> Result<(), Fail> {
    let mut heap = OpenHeap::new(rt.alloc())?;
    for (key, estimate) in [(0, 500_000), (1, 900_000), (2, 500_000)] {
        assert!(rt; put(&mut heap, key, estimate));
    }
    assert!(rt; matches!(heap.pop_least(), Some(entry) if entry.estimate == 500_000));
    assert!(rt;
        put(&mut heap, 3, 700_000) && put(&mut heap, 4, 100_000) && put(&mut heap, 1, 510_000)
    );
    assert!(rt; matches!(heap.pop_least(), Some(entry) if entry.key == 4));
    heap.clear();
    assert!(rt; heap.is_empty() && heap.get(3).is_none());
    for (key, estimate) in [(3, 8), (1, 9), (0, 7)] {
        assert!(rt; put(&mut heap, key, estimate));
    }
    assert!(rt; gives(&mut heap, &[0, 3, 1]));
    Ok(())
}
