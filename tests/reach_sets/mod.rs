use nav_types::NoMemory;
use reach_sets::{AreaTable, Links, RegionId};
use std::alloc::Global;
use std::test::Fail;

fn id(chunk: u32, region: u16) -> RegionId {
    RegionId { chunk, region }
}

fn exists(regions: &[u16], id: RegionId) -> bool {
    (id.chunk as usize) < regions.len() && 1 <= id.region && id.region <= regions[id.chunk as usize]
}

/// Those pairs whose regions exist.
fn linked(
    alloc: Global,
    regions: &[u16],
    pairs: &[(RegionId, RegionId)],
) -> Result<Links, NoMemory> {
    let mut links = Links::new(alloc);
    for pair in pairs {
        if exists(regions, pair.0) && exists(regions, pair.1) {
            links.push(*pair)?;
        }
    }
    Ok(links)
}

fn table_of(
    alloc: Global,
    regions: &[u16],
    pairs: &[(RegionId, RegionId)],
) -> Result<AreaTable, NoMemory> {
    let links = linked(alloc, regions, pairs)?;
    AreaTable::build(alloc, regions, &links)
}

/// The area of a region. None where there is no such region.
fn area_in(table: &AreaTable, regions: &[u16], id: RegionId) -> Option<u32> {
    if exists(regions, id) {
        Some(table.area(id))
    } else {
        None
    }
}

/// Whether the two are regions of one area. None where one is no region.
fn same_in(table: &AreaTable, regions: &[u16], one: RegionId, other: RegionId) -> Option<bool> {
    if exists(regions, one) && exists(regions, other) {
        Some(table.same(one, other))
    } else {
        None
    }
}

/// Whether these are the areas of all regions in order, and last the number of areas.
fn has_areas(
    alloc: Global,
    regions: [u16; 3],
    pairs: &[(RegionId, RegionId)],
    wanted: &[u32],
) -> Result<bool, NoMemory> {
    let table = table_of(alloc, &regions, pairs)?;
    let mut rest = wanted;
    for (chunk, count) in (0..3).zip(regions) {
        for region in 0..count {
            let Some((area, others)) = rest.split_first() else {
                return Ok(false);
            };
            if area_in(&table, &regions, id(chunk, region + 1)) != Some(*area) {
                return Ok(false);
            }
            rest = others;
        }
    }
    Ok(rest == [table.count()].as_slice())
}

#[test]
fn numbers_areas_by_their_first_regions(rt: HostRuntime) {
    let pairs = [
        (id(0, 2), id(2, 1)),
        (id(2, 3), id(1, 1)),
        (id(1, 1), id(0, 1)),
    ];
    for (regions, joined, wanted) in [
        ([2, 0, 3], &pairs[..0], [1, 2, 3, 4, 5, 5].as_slice()),
        ([2, 1, 3], &pairs[..2], [1, 2, 3, 2, 4, 3, 4].as_slice()),
        ([2, 1, 3], &pairs[..3], [1, 2, 1, 2, 3, 1, 3].as_slice()),
    ] {
        assert!(rt; has_areas(rt.alloc(), regions, joined, wanted) == Ok(true));
    }
}

#[test]
fn joined_regions_are_of_one_area(rt: HostRuntime) -> Result<(), Fail> {
    let regions = [2, 1, 3];
    let pairs = [(id(2, 3), id(1, 1)), (id(1, 1), id(0, 1))];
    let table = table_of(rt.alloc(), &regions, &pairs)?;
    assert!(rt; same_in(&table, &regions, id(0, 1), id(2, 3)) == Some(true));
    assert!(rt; same_in(&table, &regions, id(0, 1), id(0, 2)) == Some(false));
    assert!(rt; same_in(&table, &regions, id(2, 2), id(2, 2)) == Some(true));
    Ok(())
}

/// The regions of ten chunks of 10,000, in order.
fn at(place: u32) -> RegionId {
    id(place / 10_000, (place % 10_000) as u16 + 1)
}

/// The links of all regions in one chain, from the end.
fn chained(alloc: Global) -> Result<Vec<(RegionId, RegionId)>, NoMemory> {
    let mut pairs = Vec::with_capacity(alloc, 99_999)?;
    for k in 1..100_000 {
        pairs.push((at(100_000 - k), at(99_999 - k)))?;
    }
    Ok(pairs)
}

#[test]
fn a_long_chain_is_one_area(rt: HostRuntime) -> Result<(), Fail> {
    let pairs = chained(rt.alloc())?;
    let table = table_of(rt.alloc(), &[10_000; 10], &pairs)?;
    assert!(rt; table.count() == 1);
    Ok(())
}

/// The links of each 1,000th region in one chain, from the end, and of each but the first with the region so many places on.
fn sparse(alloc: Global, beside: u32) -> Result<Vec<(RegionId, RegionId)>, NoMemory> {
    let mut pairs = Vec::with_capacity(alloc, 198)?;
    for k in 1..100 {
        let place = 100_000 - 1_000 * k;
        pairs.push((at(place), at(place - 1_000)))?;
        pairs.push((at(place), at(place + beside)))?;
    }
    Ok(pairs)
}

/// Whether the tables of some links and of the same with a link of each region to itself have the same areas.
fn same_with_more(alloc: Global, pairs: &[(RegionId, RegionId)]) -> Result<bool, Fail> {
    let few = table_of(alloc, &[10_000; 10], pairs)?;
    let mut more = Vec::with_capacity(alloc, 100_000)?;
    more.extend_from_slice(pairs)?;
    for k in 0..100_000 {
        more.push((at(k), at(k)))?;
    }
    let many = table_of(alloc, &[10_000; 10], &more)?;
    for k in 0..100_000 {
        if few.area(at(k)) != many.area(at(k)) {
            return Ok(false);
        }
    }
    Ok(few.count() == many.count())
}

#[test]
fn regions_without_links_are_areas_of_their_own(rt: HostRuntime) -> Result<(), Fail> {
    for beside in [1, 63, 64, 999] {
        let pairs = sparse(rt.alloc(), beside)?;
        let table = table_of(rt.alloc(), &[10_000; 10], &pairs)?;
        assert!(rt; table.count() == 99_802);
        assert!(rt; table.area(at(1_000 + beside)) == 1);
        let last = if beside == 999 { 1 } else { 99_802 };
        assert!(rt; table.area(at(99_999)) == last);
        assert!(rt; same_with_more(rt.alloc(), &pairs)?);
    }
    Ok(())
}
