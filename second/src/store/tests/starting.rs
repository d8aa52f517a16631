//! Starting a store.

use super::{trusted, used_rooms, Rooms, SEVEN};
use crate::store::Store;

const ROOT: [u8; 32] = [0x5a; 32];

/// "L=0: 12; 524,288: taken; 524,289: 12", and trap 112: 12 before 11.
#[test]
fn trap_112_lengths_of_an_order() {
    for length in [0, 524_289, u32::MAX] {
        assert_eq!(Store::start(ROOT, length).err(), Some(12));
        let none = Rooms {
            chunks: vec![],
            hashes: vec![],
        };
        assert_eq!(Store::start_in(none, ROOT, length).err(), Some(12));
    }
    for (length, count) in [(1, 1), (524_288, 512)] {
        let store = Store::start(ROOT, length).unwrap();
        assert_eq!(store.length(), length);
        assert_eq!(store.count(), count);
    }
}

/// The rooms are "chunk bytes (at least L)" and "16 words of 32 bits for each
/// leaf place": for seven chunks, eight places and so sixteen hashes.
#[test]
fn rooms_of_the_least_size() {
    let rooms = |bytes, hashes| Rooms {
        chunks: vec![0; bytes],
        hashes: vec![[0; 32]; hashes],
    };
    assert!(Store::start_in(rooms(7_162, 16), ROOT, SEVEN).is_ok());
    for small in [rooms(7_161, 16), rooms(7_162, 15)] {
        assert_eq!(Store::start_in(small, ROOT, SEVEN).err(), Some(11));
    }
    assert_eq!(Rooms::zero(SEVEN).chunks.len(), 7_162);
    assert_eq!(Rooms::zero(SEVEN).hashes.len(), 16);
}

/// Trap 113: all but the root's hash stays as it was.
#[test]
fn trap_113_rooms_stay_as_they_were() {
    let rooms = used_rooms(SEVEN);
    let store = Store::start_in(rooms.clone(), ROOT, SEVEN).unwrap();
    assert!(store.chunks() == rooms.chunks);
    for (node, hash) in rooms.hashes.iter().enumerate() {
        let wanted = if node == 7 { &ROOT } else { hash };
        assert_eq!(store.hash(node as u64), wanted, "node {node}");
    }
    assert_eq!(*store.root(), ROOT);
    assert_eq!(store.held(), 0);
    assert!(!store.is_whole());
}

/// Trap 114: the root only, which is W - 1 for W leaf places.
#[test]
fn trap_114_the_root_alone_is_trusted() {
    for (length, root) in [
        (1, 0),
        (1_025, 1),
        (2_049, 3),
        (4_097, 7),
        (SEVEN, 7),
        (8_192, 7),
        (8_193, 15),
        (524_288, 511),
    ] {
        let store = Store::start(ROOT, length).unwrap();
        assert_eq!(trusted(&store), [root], "length {length}");
        assert_eq!(*store.hash(root), ROOT);
    }
}
