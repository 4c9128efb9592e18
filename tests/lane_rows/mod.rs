//! Each kernel on rows about the length of a block, and on a row of the longest side of a map.

use lane_rows::{count_bit, differs, or_span, plane_words};

#[test]
fn kernels_go_past_the_end_of_a_block(rt: HostRuntime) {
    let plain = [2u16; 101];
    let mut row = plain;
    or_span(&mut row, 31, 100, 9);
    assert!(rt; row[30] == 2 && row[31] == 11 && row[99] == 11 && row[100] == 2);
    assert!(rt; count_bit(&row, 0) == 69 && count_bit(&row, 1) == 101 && count_bit(&row, 2) == 0);
    assert!(rt; differs(&row, &plain) == 9 && differs(&row, &row) == 0);
    let mut words = [0u64; 2];
    plane_words(&row, 3, &mut words);
    assert!(rt; words == [0xffff_ffff_8000_0000, 0x0000_000f_ffff_ffff]);
}

/// Lengths of rows: none, one, and those about half a block, a block, and a whole row of the largest map.
const LENGTHS: [usize; 9] = [0, 1, 31, 32, 33, 63, 64, 65, 2048];

/// Whether the kernels tell of a row of so many places, of which the later half is marked, where it is.
fn are_told_apart(length: usize) -> bool {
    if length > 2048 {
        return false;
    }
    let plain = [2u16; 2048];
    let mut row = plain;
    or_span(&mut row, length / 2, length, 9);
    let marked = length - length / 2;
    let mut words = [0u64; 32];
    plane_words(&row[..length], 3, &mut words[..(length + 63) / 64]);
    let mut ones = 0u32;
    for word in words {
        ones = ones.saturating_add(word.count_ones());
    }
    let (row, plain) = (&row[..length], &plain[..length]);
    differs(row, plain) == if marked > 0 { 9 } else { 0 }
        && count_bit(row, 1) == length
        && count_bit(row, 3) == marked
        && ones as usize == marked
}

#[test]
fn kernels_go_to_the_end_of_rows_of_any_length(rt: HostRuntime) {
    for length in LENGTHS {
        assert!(rt; are_told_apart(length), "{length}");
    }
}
