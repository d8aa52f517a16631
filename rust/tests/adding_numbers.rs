//! Adding a message in the library's own numbers: the order in which they are given, and the types over no chunk.

use crate::support::bytes;
use ppspp::calls;

/// A root or hash.
const HASH: [u8; 32] = [7; 32];

/// The number for a message behind bytes so far, in a room of a size.
fn number(method: u32, so_far: &str, size: usize, message: calls::Numbers<'_>) -> u32 {
    let so_far = bytes(so_far);
    let mut room = vec![0xc5; 2_049];
    room[..so_far.len()].copy_from_slice(&so_far);
    let before = room.clone();
    let (number, len) = calls::add(&mut room[..size], method, so_far.len(), message);
    assert!((number == 0) != (room == before && len == 0));
    number
}

/// A message in the library's numbers, with a hash.
fn numbers(kind: u32, first: u32, last: u32) -> calls::Numbers<'static> {
    calls::Numbers {
        kind,
        first,
        last,
        number: 0,
        bytes: &HASH,
    }
}

#[test]
fn order_of_the_numbers() {
    let have = |last| numbers(3, 0, last);
    assert_eq!(number(0, "00000009", 2_048, have(3)), 0);
    // No such addressing is 12, before 11, before 1 for the datagram so far.
    for method in [1, 3, 4, 255, 256, u32::MAX] {
        assert_eq!(number(method, "00000009", 2_048, have(3)), 12);
        assert_eq!(number(method, "000000", 2_047, have(3)), 12);
        assert_eq!(number(method, "000000", 0, have(3)), 12);
    }
    assert_eq!(number(0, "000000", 2_047, have(2)), 11);
    assert_eq!(number(0, "000000", 2_048, have(2)), 1);
    assert_eq!(number(0, "00000009 0a*2045", 2_049, have(2)), 1);
    // The datagram so far is read under the addressing: 0..1 is bin 0 and a HANDSHAKE that is cut short.
    assert_eq!(
        number(2, "00000009 03 00000000 00000001", 2_048, have(3)),
        0
    );
    assert_eq!(
        number(0, "00000009 03 00000000 00000001", 2_048, have(3)),
        2
    );
    assert_eq!(number(2, "00000009 03 00000003", 2_048, have(3)), 2);
    assert_eq!(number(0, "00000009 03 00000003", 2_048, have(3)), 0);
}

#[test]
fn types_of_empty_messages() {
    // 256 and the type, of HAVE, REQUEST and CANCEL alone; the other numbers are not looked at.
    for kind in [259, 264, 265] {
        assert_eq!(number(0, "00000009", 2_048, numbers(kind, 0, 0)), 0);
        assert_eq!(number(0, "00000009", 2_048, numbers(kind, 7, 5)), 0);
        assert_eq!(number(2, "00000009", 2_048, numbers(kind, 0, 0)), 2);
    }
    for kind in [
        256,
        257,
        258,
        260,
        261,
        263,
        266,
        267,
        515,
        259 + (1 << 16),
        u32::MAX,
    ] {
        assert_eq!(
            number(0, "00000009", 2_048, numbers(kind, 0, 0)),
            2,
            "{kind}"
        );
    }
}
