//! How messages name the chunks of a row.

use ppspp::{Addressing, Bin};
use yard::naming::names;

/// A row of the chunks from a first to a last one.
fn row(first: u32, last: u32) -> [u32; 2] {
    let mut row = [0, 0];
    (first..=last).for_each(|chunk| yard::bits::set(&mut row, chunk));
    row
}

fn bins(chunks: u32, row: &[u32]) -> Vec<u32> {
    let names = names(Addressing::Bins, chunks, row).into_iter();
    let bin = |(first, last)| Bin::over(first, last).expect("a bin's chunks").0;
    names.map(bin).collect()
}

#[test]
fn under_ranges_each_run_has_one_name() {
    let ranges = |chunks, row: &[u32]| names(Addressing::Ranges, chunks, row);
    assert_eq!(ranges(7, &[0b101_1101, 0]), [(0, 0), (2, 4), (6, 6)]);
    assert_eq!(ranges(40, &row(0, 39)), [(0, 39)]);
}

/// Chunk i is bin 2i; chunks 2 and 3 are bin 5, chunks 4 to 7 bin 11.
#[test]
fn under_bins_a_run_is_cut_into_subtrees() {
    assert_eq!(bins(16, &row(1, 6)), [2, 5, 9, 12]);
    assert_eq!(bins(16, &row(0, 6)), [3, 9, 12]);
    assert_eq!(bins(16, &row(2, 12)), [5, 11, 19, 24]);
    assert_eq!(bins(16, &row(0, 15)), [15]);
    assert_eq!(bins(40, &row(31, 32)), [62, 64]);
    assert_eq!(bins(7, &[0b010_1001, 0]), [0, 6, 10]);
    assert_eq!(bins(7, &[0, 0]), []);
}

/// A run up to the last chunk ends with a bin that may run past it.
#[test]
fn under_bins_a_run_up_to_the_end_needs_fewer() {
    assert_eq!(bins(7, &row(0, 6)), [7]);
    assert_eq!(bins(7, &row(3, 6)), [6, 11]);
    assert_eq!(bins(7, &row(6, 6)), [12]);
    assert_eq!(bins(7, &row(4, 5)), [9]);
    assert_eq!(bins(5, &row(0, 4)), [7]);
    assert_eq!(bins(1, &row(0, 0)), [0]);
    assert_eq!(bins(33, &row(32, 32)), [64]);
}

/// Whatever the row: inside the pack the names are over its chunks, each once, and no others.
#[test]
fn under_bins_the_names_are_over_the_row() {
    for chunks in 1..=9u32 {
        for bits in 0..1u32 << chunks {
            let mut named = 0;
            for (first, last) in names(Addressing::Bins, chunks, &[bits]) {
                assert!(Bin::over(first, last).is_some(), "{first} to {last}");
                for chunk in first..=last.min(chunks - 1) {
                    assert_eq!(named >> chunk & 1, 0, "chunk {chunk} twice in {bits:b}");
                    named |= 1 << chunk;
                }
            }
            assert_eq!(named, bits, "of {chunks}");
        }
    }
}
