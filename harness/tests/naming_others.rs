//! The node that 9 and 10 name (02, No. 3), where little is as usual: numbers that
//! name none, other messages in the datagram, and stores that no call leaves so. All
//! is worked out on paper; each call goes to `second` too.

use crate::naming::{Scene, Wrong, ITS, OURS, WITH_0};
use harness::caller::Caller;
use harness::channels::{METHOD, VERSION};
use harness::packets::*;
use ppspp::calls;
use second::wire::Addressing;

/// Chunk 0 of seven without a hash, which gets 9 where nothing else is at fault.
fn alone(scene: &Scene) -> Vec<u8> {
    scene.messages(0, &[], Wrong::Nothing).remove(0)
}

/// "Other numbers carry no node": 0, and those that come before 9, each for a
/// datagram that would else get 9.
#[test]
fn other_numbers_of_datagrams() {
    for addressing in METHODS {
        let mut scene = Scene::fresh(addressing, 7);
        let chunk = alone(&scene);
        let short = chunk[..chunk.len() - 1].to_vec();
        let past = ranged(addressing, HAVE, 7, 7);
        let node_past = integrity(addressing, 14, &[7; 32]);
        let opening = handshake(ITS, &fixed(addressing, scene.pack.built.root()));
        let to_us = |messages: &[&[u8]]| datagram(OURS, &[messages.concat()]);
        let oversize = [to_us(&[&chunk]), vec![0; 1_100]].concat();
        let cases = [
            (9, to_us(&[&chunk])),
            (0, to_us(&[])),
            (0, to_us(&[&[CHOKE]])),
            (1, oversize),
            (2, to_us(&[&[7], &chunk])),
            (3, to_us(&[&[CHOKE], &opening, &chunk])),
            (5, sent_to(OURS + 1, to_us(&[&chunk]))),
            (7, to_us(&[&past, &chunk])),
            (7, to_us(&[&node_past, &chunk])),
            (8, to_us(&[&short])),
        ];
        for (number, datagram) in cases {
            let node = (number == 9).then_some(3);
            assert_eq!(scene.store.answer(0, &datagram), (number, node));
        }
        scene.taken(0, &WITH_0, Wrong::Nothing);
        scene.taken(0, &WITH_0, Wrong::Nothing);
    }
}

/// Those of a HANDSHAKE: 4, 14 and 6.
#[test]
fn other_numbers_of_handshakes() {
    for addressing in METHODS {
        let mut scene = Scene::fresh(addressing, 7);
        let root = *scene.pack.built.root();
        let opening = |method| datagram(0, &[handshake(ITS, &fixed(method, &root))]);
        let (right, wrong) = (opening(addressing), opening(other(addressing)));
        assert_eq!(scene.store.answer(20, &wrong), (4, None));
        assert_eq!(scene.store.answer(OURS, &right), (14, None));
        for id in 20..35 {
            assert_eq!(scene.store.answer(id, &right), (0, None));
        }
        assert_eq!(scene.store.answer(35, &right), (6, None));
    }
}

/// Those of the store: 11 for a room, 12 for what is no order, both before 9.
#[test]
fn other_numbers_of_stores() {
    for addressing in METHODS {
        let scene = Scene::fresh(addressing, 7);
        let datagram = datagram(OURS, &[alone(&scene)]);
        let mut small = scene.store.0.clone();
        small.change(|_, rooms| rooms.trusted.clear());
        let mut old = scene.store.0.clone();
        old.change(|state, _| state[VERSION] = 1);
        let mut of_no_method = scene.store.0.clone();
        of_no_method.change(|state, _| state[METHOD] = 1);
        for (number, store) in [(11, small), (12, old), (12, of_no_method)] {
            assert_eq!(Caller(store).answer(0, &datagram), (number, None));
        }
    }
}

/// The word that stands for no node, and one that names one.
#[test]
fn the_words_themselves() {
    let scene = Scene::fresh(Addressing::Ranges, 7);
    let mut state = scene.store.0.words().to_vec();
    let mut rooms = scene.store.0.rooms().clone();
    let mut take = |datagram: &[u8]| calls::take(rooms.lend(&mut state), 0, 0, datagram);
    let keepalive = OURS.to_be_bytes();
    assert_eq!(take(&keepalive), (0, 0, u64::MAX));
    assert_eq!(take(&keepalive[..3]), (1, 0, u64::MAX));
    assert_eq!(take(&datagram(OURS, &[alone(&scene)])), (9, 0, 3));
    let wrong = scene.messages(0, &WITH_0, Wrong::Hashes(&[9]));
    assert_eq!(take(&datagram(OURS, &wrong)), (10, 0, 7));
}

/// Other messages between the hashes, and hashes of nodes that are not needed.
#[test]
fn among_other_messages() {
    for addressing in METHODS {
        let mut scene = Scene::fresh(addressing, 7);
        let others = [
            ranged(addressing, HAVE, 4, 5),
            vec![CHOKE],
            integrity(addressing, 1, &[7; 32]),
            ranged(addressing, REQUEST, 0, 3),
            integrity(addressing, 0, &[7; 32]),
        ];
        let cases: [(&[u64], Wrong, u32, u64); 4] = [
            (&[12, 3, 2], Wrong::Nothing, 9, 5),
            (&[9, 3, 5], Wrong::Chunk, 9, 2),
            (&WITH_0, Wrong::Chunk, 10, 3),
            (&WITH_0, Wrong::Hashes(&[12]), 10, 7),
        ];
        for (nodes, wrong, number, node) in cases {
            let messages = scene.messages(0, nodes, wrong);
            let mixed = messages.iter().zip(others.iter().cycle());
            let mixed = mixed.map(|(own, other)| [&other[..], own].concat());
            let mixed = datagram(OURS, &mixed.collect::<Vec<_>>());
            assert_eq!(scene.store.answer(0, &mixed), (number, Some(node)));
        }
    }
}

/// "if the peaks aren't trusted yet, all must come": also where one is not.
#[test]
fn a_peak_that_is_not_trusted() {
    for addressing in METHODS {
        let mut scene = Scene::fresh(addressing, 7);
        scene.taken(0, &WITH_0, Wrong::Nothing);
        scene
            .store
            .0
            .change(|_, rooms| rooms.trusted[0] &= !(1 << 12));
        // The leaf of chunk 1 is trusted, and so it needs no sibling.
        scene.missing(1, &[], 3);
        scene.missing(1, &[3, 12], 9);
        scene.missed(1, &[3, 9, 12], Wrong::Chunk, 2);
        scene.missed(1, &[3, 9, 12], Wrong::Both(&[3]), 7);
        // Chunk 2 climbs to node 5, and its sibling stands before the last peak.
        scene.missing(2, &[3, 9], 6);
        scene.missing(2, &[3, 6, 9], 12);
        scene.missed(2, &[3, 6, 9, 12], Wrong::Chunk, 5);
        scene.taken(2, &[3, 6, 9, 12], Wrong::Nothing);
    }
}

/// A root that is not trusted: where it is the one peak it must come.
#[test]
fn a_root_that_is_not_trusted() {
    for addressing in METHODS {
        let mut eight = Scene::fresh(addressing, 8);
        eight.store.0.change(|_, rooms| rooms.trusted[0] = 0);
        eight.missing(0, &[11, 5, 2], 7);
        eight.missing(0, &[7, 5, 2], 11);
        eight.missed(0, &[7, 11, 5, 2], Wrong::Hashes(&[7]), 7);
        eight.missed(0, &[7, 11, 5, 2], Wrong::Chunk, 7);
        eight.taken(0, &[7, 11, 5, 2], Wrong::Nothing);
        // Where it is none, its bit is not looked at.
        let mut seven = Scene::fresh(addressing, 7);
        seven.store.0.change(|_, rooms| rooms.trusted[0] = 0);
        seven.missing(0, &[3, 5, 9, 2], 12);
        seven.missed(0, &WITH_0, Wrong::Hashes(&[9]), 7);
        seven.missed(0, &WITH_0, Wrong::Chunk, 3);
    }
}

/// A chunk in the map whose leaf is not trusted: as if it were not there.
#[test]
fn a_held_chunk_whose_leaf_is_not_trusted() {
    for addressing in METHODS {
        let mut scene = Scene::fresh(addressing, 7);
        scene.store.0.change(|_, rooms| rooms.map[0] = 1);
        scene.missing(0, &[], 3);
        scene.missing(0, &[3, 9, 12], 5);
        scene.missed(0, &WITH_0, Wrong::Chunk, 3);
        scene.missed(0, &WITH_0, Wrong::Hashes(&[3]), 7);
        scene.taken(0, &WITH_0, Wrong::Nothing);
        // It was held already, and so nothing became trusted.
        scene.missing(1, &[], 3);
    }
}
