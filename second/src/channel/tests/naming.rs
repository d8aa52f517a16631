//! The node that 9 and 10 name (02, No. 3), through a datagram and the lent rooms.
//! Under both methods it is the same, a bin number. Which node it is in which tree
//! stands beside the store; the nodes here are found by hand too.

use super::*;

const METHODS: [Addressing; 2] = [Addressing::Bins, Addressing::Ranges];

/// A pack of seven chunks, and a store of it.
struct Scene {
    pack: Pack,
    caller: Caller,
    addressing: Addressing,
}

impl Scene {
    fn new(addressing: Addressing) -> Self {
        let pack = Pack::new(SEVEN);
        let caller = pack.started_under(addressing);
        Scene {
            pack,
            caller,
            addressing,
        }
    }

    /// The number and the node for a chunk of these bytes with these messages
    /// before it.
    fn offer(&mut self, number: u32, bytes: &[u8], messages: &[u8]) -> (u8, Option<u64>) {
        let data = either::data(self.addressing, tree::leaf(number), 0, bytes);
        let datagram = to(5, &[messages, &data]);
        let (number, node, _) = self.caller.take_named(0, 0, &datagram);
        (number, node)
    }

    /// The same with a right chunk and the right hashes of these nodes.
    fn with(&mut self, number: u32, nodes: &[u64]) -> (u8, Option<u64>) {
        let bytes = self.pack.chunk(number).to_vec();
        self.offer(number, &bytes, &self.hashes(nodes))
    }

    /// The same with a wrong bit in the chunk.
    fn damaged_with(&mut self, number: u32, nodes: &[u64]) -> (u8, Option<u64>) {
        self.offer(number, &self.pack.damaged(number), &self.hashes(nodes))
    }

    fn hashes(&self, nodes: &[u64]) -> Vec<u8> {
        self.pack.hashes_under(self.addressing, nodes)
    }

    /// Hashes that are no node's.
    fn wrong(&self, nodes: &[u64]) -> Vec<u8> {
        let message = |&node| either::integrity(self.addressing, node, &[0xa5; 32]);
        nodes.iter().flat_map(message).collect()
    }
}

#[test]
fn the_first_missing_in_the_sending_order() {
    // What came, and the first of 3, 5, 9, 2, 12 that did not.
    let cases: [(&[u64], u64); 11] = [
        (&[5, 9, 2, 12], 3),
        (&[3, 9, 2, 12], 5),
        (&[3, 5, 2, 12], 9),
        (&[3, 5, 9, 12], 2),
        (&[3, 5, 9, 2], 12),
        // 2..3 before 4..5; chunk 1 before chunk 6.
        (&[12, 2, 3], 5),
        (&[9, 5, 3], 2),
        // A higher one before a lower one.
        (&[3, 5, 12], 9),
        (&[2, 12], 3),
        (&[], 3),
        // Not needed.
        (&[0, 1, 4, 6, 8, 10, 2, 12, 9, 3], 5),
    ];
    for addressing in METHODS {
        let mut scene = Scene::new(addressing);
        for (came, missing) in cases {
            assert_eq!(scene.with(0, came), (9, Some(missing)), "{came:?}");
            assert_eq!(scene.damaged_with(0, came), (9, Some(missing)));
            let wrong = scene.wrong(came);
            let damaged = scene.pack.damaged(0);
            assert_eq!(scene.offer(0, &damaged, &wrong), (9, Some(missing)));
        }
        assert_eq!(scene.with(0, &WITH_CHUNK_0), (0, None));
        assert_eq!(scene.with(2, &[3, 1, 9, 12]), (9, Some(6)));
        assert_eq!(scene.with(4, &[]), (9, Some(10)));
    }
}

/// Hashes that came with other messages between them.
#[test]
fn missing_among_other_messages() {
    for addressing in METHODS {
        let mut scene = Scene::new(addressing);
        let have = either::have(addressing, 5);
        let request = either::request(addressing, 9);
        let messages = [
            &have[..],
            &scene.hashes(&[12, 3]),
            &CHOKE,
            &scene.hashes(&[2]),
            &request,
        ];
        let bytes = scene.pack.chunk(0).to_vec();
        assert_eq!(scene.offer(0, &bytes, &messages.concat()), (9, Some(5)));
    }
}

#[test]
fn the_trusted_node_that_is_missed() {
    for addressing in METHODS {
        let mut scene = Scene::new(addressing);
        // Wrong peaks: the root.
        let chunk = scene.pack.chunk(0).to_vec();
        for peak in [3, 9, 12] {
            let others = WITH_CHUNK_0.into_iter().filter(|&node| node != peak);
            let others: Vec<u64> = others.collect();
            let came = [scene.hashes(&others), scene.wrong(&[peak])].concat();
            assert_eq!(scene.offer(0, &chunk, &came), (10, Some(7)));
            let damaged = scene.pack.damaged(0);
            assert_eq!(scene.offer(0, &damaged, &came), (10, Some(7)));
        }
        // Right peaks that came.
        assert_eq!(scene.damaged_with(0, &WITH_CHUNK_0), (10, Some(3)));
        assert_eq!(scene.damaged_with(4, &[3, 9, 10, 12]), (10, Some(9)));
        assert_eq!(scene.damaged_with(6, &[3, 9, 12]), (10, Some(12)));
        let came = [scene.hashes(&[3, 9, 12, 5]), scene.wrong(&[2])].concat();
        assert_eq!(scene.offer(0, &chunk, &came), (10, Some(3)));
        // Nodes that are trusted since chunk 0 was stored.
        assert_eq!(scene.with(0, &WITH_CHUNK_0), (0, None));
        assert_eq!(scene.damaged_with(1, &[]), (10, Some(2)));
        assert_eq!(scene.damaged_with(3, &[4]), (10, Some(5)));
        assert_eq!(scene.damaged_with(5, &[8]), (10, Some(9)));
        assert_eq!(scene.damaged_with(6, &[]), (10, Some(12)));
        assert_eq!(scene.damaged_with(0, &[]), (10, Some(0)));
    }
}

/// A chunk in the map of which no hash is trusted: no call leaves this, and each
/// names what it would name without the bit.
#[test]
fn a_held_chunk() {
    for addressing in METHODS {
        let mut scene = Scene::new(addressing);
        scene.caller.map[0] |= 1;
        assert_eq!(scene.with(0, &[]), (9, Some(3)));
        assert_eq!(scene.with(0, &[3, 9, 12]), (9, Some(5)));
        assert_eq!(scene.damaged_with(0, &WITH_CHUNK_0), (10, Some(3)));
        assert_eq!(scene.with(0, &WITH_CHUNK_0), (0, None));
        assert_eq!(scene.caller.trusted_nodes(), [7]);
    }
}

/// Trusted peaks but one: all are needed.
#[test]
fn one_peak_is_not_trusted() {
    for addressing in METHODS {
        let mut scene = Scene::new(addressing);
        assert_eq!(scene.with(0, &WITH_CHUNK_0), (0, None));
        scene.caller.trusted[0] &= !(1 << 12);
        // Chunk 1's leaf is trusted, so that it has no siblings.
        assert_eq!(scene.with(1, &[]), (9, Some(3)));
        assert_eq!(scene.with(1, &[3, 12]), (9, Some(9)));
        assert_eq!(scene.damaged_with(1, &[3, 9, 12]), (10, Some(2)));
        // Chunk 2 climbs to node 5.
        assert_eq!(scene.with(2, &[3, 9]), (9, Some(6)));
        assert_eq!(scene.with(2, &[3, 9, 6]), (9, Some(12)));
    }
}

/// One chunk: its leaf is the root.
#[test]
fn one_chunk_alone() {
    let pack = Pack::new(1);
    for addressing in METHODS {
        let mut caller = pack.started_under(addressing);
        let damaged = either::data(addressing, 0, 0, &pack.damaged(0));
        let datagram = to(5, &[&damaged]);
        assert_eq!(caller.take_named(0, 0, &datagram), (10, Some(0), vec![]));
    }
}

#[test]
fn other_numbers_name_no_node() {
    for addressing in METHODS {
        let mut scene = Scene::new(addressing);
        let none = |number| (number, None, vec![]);
        let data = scene.pack.data_under(addressing, 0);
        let past = either::have(addressing, 14);
        let cases: [(u8, Vec<u8>); 7] = [
            (0, to(5, &[])),
            (1, vec![0; 3]),
            (2, to(5, &[&REFUSED])),
            (3, to(5, &[&CHOKE, &closing()])),
            (5, to(6, &[&data])),
            (7, to(5, &[&past, &data])),
            (8, to(5, &[&data[..data.len() - 1]])),
        ];
        for (number, datagram) in cases {
            assert_eq!(scene.caller.take_named(0, 0, &datagram), none(number));
        }
    }
}
