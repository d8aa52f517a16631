//! Rows of bits.

use yard::bits;

/// Bits 0, 1, 31, 32 and 40.
const ROW: [u32; 2] = [0x8000_0003, 0x0000_0101];

#[test]
fn bits_are_found_low_first() {
    assert_eq!(bits::ones(&ROW).collect::<Vec<_>>(), [0, 1, 31, 32, 40]);
    assert_eq!(bits::count(&ROW), 5);
    assert!(bits::get(&ROW, 31) && !bits::get(&ROW, 30));
}

#[test]
fn runs_go_over_words() {
    assert_eq!(bits::runs(&ROW), [(0, 1), (31, 32), (40, 40)]);
    assert_eq!(bits::runs(&[0, 0]), []);
}

#[test]
fn rows_are_combined() {
    let mut row = [0, 0];
    bits::set(&mut row, 32);
    bits::set(&mut row, 5);
    assert_eq!(row, [0x20, 1]);
    assert_eq!(bits::without(&ROW, &row), [0x8000_0003, 0x100]);
    assert_eq!(bits::both(&ROW, &row), [0, 1]);
}
