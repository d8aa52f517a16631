//! Building a whole store.

use super::{content, plain, trusted, used_rooms, Rooms, SEVEN};
use crate::sha256::{node, sha256};
use crate::store::Store;
use crate::tree;

/// Trap 115: content of another length; trap 112's order of refusals.
#[test]
fn trap_115_lengths_of_the_content() {
    for length in [0, 524_289] {
        assert_eq!(Store::build(&content(length)).err(), Some(12));
    }
    let built = |length, content: &[u8]| Store::build_in(used_rooms(SEVEN), length, content);
    assert!(built(SEVEN, &content(SEVEN)).is_ok());
    for other in [0, SEVEN - 1, SEVEN + 1] {
        assert_eq!(built(SEVEN, &content(other)).err(), Some(12));
    }
    let small = || Rooms {
        chunks: vec![0; 7_161],
        hashes: vec![[0; 32]; 16],
    };
    let answer = |length, content: &[u8]| Store::build_in(small(), length, content).err();
    assert_eq!(answer(SEVEN, &content(SEVEN)), Some(11));
    assert_eq!(answer(SEVEN, &content(SEVEN - 1)), Some(12));
    assert_eq!(answer(0, &[]), Some(12));
}

/// Trap 115: the root and the nodes wholly inside, not node 5 of N=3.
#[test]
fn trap_115_nodes_of_three_chunks() {
    let (length, rooms) = (3 * 1024, used_rooms(3 * 1024));
    let content = content(length);
    let store = Store::build_in(rooms.clone(), length, &content).unwrap();
    assert_eq!(trusted(&store), [0, 1, 2, 3, 4]);
    let leaves: Vec<_> = content.chunks(1024).map(sha256).collect();
    let left = node(&leaves[0], &leaves[1]);
    let right = node(&leaves[2], &[0; 32]);
    assert_eq!(*store.hash(0), leaves[0]);
    assert_eq!(*store.hash(2), leaves[1]);
    assert_eq!(*store.hash(4), leaves[2]);
    assert_eq!(*store.hash(1), left);
    assert_eq!(*store.hash(3), node(&left, &right));
    assert_eq!(store.root(), store.hash(3));
    for untouched in 5..rooms.hashes.len() {
        assert_eq!(store.hashes()[untouched], rooms.hashes[untouched]);
    }
}

/// Trap 101: N=5 has a filler over two fillers, which is zero, and fillers
/// beside real nodes, which are hashed.
#[test]
fn trap_101_fillers_of_five_chunks() {
    let content = content(5 * 1024);
    let leaves: Vec<_> = content.chunks(1024).map(sha256).collect();
    let node_1 = node(&leaves[0], &leaves[1]);
    let node_5 = node(&leaves[2], &leaves[3]);
    let node_9 = node(&leaves[4], &[0; 32]);
    let node_13 = [0; 32];
    let node_11 = node(&node_9, &node_13);
    let root = node(&node(&node_1, &node_5), &node_11);
    let store = Store::build(&content).unwrap();
    assert_eq!(*store.root(), root);
    assert_eq!(trusted(&store), [0, 1, 2, 3, 4, 5, 6, 7, 8]);
    assert_eq!(plain::hash(&content, 13), node_13);
}

/// "N = 1: the root is the hash of the only chunk."
#[test]
fn one_chunk_is_its_own_root() {
    for length in [1, 2, 1_023, 1_024] {
        let content = content(length);
        let store = Store::build(&content).unwrap();
        assert_eq!(*store.root(), sha256(&content));
        assert_eq!(trusted(&store), [0]);
        assert_eq!(store.held(), 1);
        assert!(store.is_whole());
    }
}

/// Every number of chunks up to 33 and some large ones, with short and whole
/// last chunks: the content, the map, and each hash and each trust.
#[test]
fn as_the_plain_tree() {
    for count in (1..=33).chain([129, 256]) {
        for last in [1, 1_024] {
            let length = 1024 * (count - 1) + last;
            let (content, rooms) = (content(length), used_rooms(length));
            let store = Store::build_in(rooms.clone(), length, &content).unwrap();
            assert!(store.chunks()[..length as usize] == content);
            assert!(store.chunks()[length as usize..] == rooms.chunks[length as usize..]);
            assert_eq!(store.held(), count as usize);
            assert!(store.is_whole());
            let top = tree::root(count);
            assert_eq!(*store.root(), plain::hash(&content, top));
            for node in 0..rooms.hashes.len() as u64 {
                let whole = node <= 2 * top && tree::last_chunk(node) < u64::from(count);
                if whole || node == top {
                    assert!(store.trusts(node));
                    assert_eq!(*store.hash(node), plain::hash(&content, node));
                } else {
                    assert!(node > 2 * top + 1 || !store.trusts(node));
                    assert_eq!(*store.hash(node), rooms.hashes[node as usize]);
                }
            }
        }
    }
}
