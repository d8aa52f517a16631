//! Traps 84 to 110: taking a chunk. All of the tree's own traps stand beside
//! the store; here each is seen through a datagram and the lent rooms.

use super::*;
use crate::sha256::{node, sha256};

/// Seven chunks of which chunk 0 has been taken.
fn seven_with_chunk_0() -> (Pack, Caller) {
    let pack = Pack::new(SEVEN);
    let mut caller = pack.started();
    let came = pack.hashes(&WITH_CHUNK_0);
    assert_eq!(caller.number(5, &[&came, &pack.data(0)]), 0);
    (pack, caller)
}

/// DATA with any bytes.
fn chunk(number: u32, bytes: &[u8]) -> Vec<u8> {
    data(number, number, 0, bytes)
}

/// The INTEGRITY messages of these nodes with hashes that are no node's.
fn wrong_ones(nodes: &[u64]) -> Vec<u8> {
    nodes.iter().flat_map(|&node| wrong(node)).collect()
}

#[test]
fn traps_84_and_85_lengths() {
    let pack = Pack::new(SEVEN);
    let mut caller = pack.started();
    let came = pack.hashes(&WITH_CHUNK_0);
    let long = [pack.chunk(0), &[0]].concat();
    for bytes in [&pack.chunk(0)[..1018], &pack.chunk(0)[..1023], &long] {
        assert_eq!(caller.number(5, &[&chunk(0, bytes)]), 8);
        assert_eq!(caller.number(5, &[&came, &chunk(0, bytes)]), 8);
    }
    let padded = [pack.chunk(6), &[0; 6]].concat();
    let peaks = pack.hashes(&[3, 9, 12]);
    assert_eq!(caller.number(5, &[&peaks, &chunk(6, &padded)]), 8);
    assert_eq!(caller.number(5, &[&peaks, &pack.data(6)]), 0);
}

#[test]
fn traps_86_to_88_a_missing_hash() {
    let pack = Pack::new(SEVEN);
    let mut caller = pack.started();
    let messages = [&wrong_ones(&[3, 9, 12]), &pack.hashes(&[5]), &pack.data(0)];
    assert_eq!(caller.number(5, &messages.map(|m| &m[..])), 9);
    let damaged = chunk(0, &pack.damaged(0));
    let came = pack.hashes(&[3, 5, 9, 2]);
    assert_eq!(caller.number(5, &[&came, &damaged]), 9);
    for missing in WITH_CHUNK_0 {
        let others: Vec<u64> = WITH_CHUNK_0.into_iter().filter(|&n| n != missing).collect();
        assert_eq!(caller.number(5, &[&pack.hashes(&others), &pack.data(0)]), 9);
    }
}

#[test]
fn traps_89_and_90_the_root_is_a_peak() {
    let pack = Pack::new(8 * 1024);
    let mut caller = pack.started();
    let came = [wrong(7), pack.hashes(&[11, 5, 2])].concat();
    assert_eq!(caller.number(5, &[&came, &pack.data(0)]), 0);
    assert_eq!(caller.hash(7), pack.root());
    let pack = Pack::new(1);
    let mut caller = pack.started();
    assert_eq!(
        caller.number(5, &[&wrong(0), &chunk(0, &[!pack.content[0]])]),
        10
    );
    assert_eq!(caller.number(5, &[&pack.data(0)]), 0);
    assert_eq!(caller.ask(), (0, 1, true));
}

#[test]
fn trap_91_a_chunk_that_is_its_own_peak() {
    let pack = Pack::new(SEVEN);
    let mut caller = pack.started();
    assert_eq!(
        caller.number(5, &[&pack.hashes(&[3, 9, 12]), &pack.data(6)]),
        0
    );
    assert_eq!(caller.trusted_nodes(), [3, 7, 9, 12]);
    assert_eq!(caller.hash(12), sha256(pack.chunk(6)));
}

#[test]
fn traps_92_and_93_nothing_of_a_failed_chunk_is_kept() {
    let pack = Pack::new(SEVEN);
    let mut caller = pack.started();
    let came = pack.hashes(&WITH_CHUNK_0);
    let damaged = chunk(0, &pack.damaged(0));
    assert_eq!(caller.number(5, &[&came, &damaged]), 10);
    assert_eq!(caller.number(5, &[&pack.hashes(&[5, 2]), &pack.data(0)]), 9);
    for place in 0..WITH_CHUNK_0.len() {
        for byte in [9, 40] {
            let mut came = came.clone();
            came[41 * place + byte] ^= 0x80;
            assert_eq!(caller.number(5, &[&came, &pack.data(0)]), 10);
        }
    }
    assert_eq!(caller.trusted_nodes(), [7]);
}

#[test]
fn traps_94_and_95_hashes_not_needed() {
    // Chunk 2 climbs to node 5 and needs leaf 6 alone.
    let (pack, mut caller) = seven_with_chunk_0();
    let others = wrong_ones(&[0, 1, 2, 3, 4, 5, 8, 9, 10, 12]);
    let messages = [&others[..], &pack.hashes(&[6]), &pack.data(2)];
    assert_eq!(caller.number(5, &messages), 0);
    assert_eq!(caller.trusted_nodes(), [0, 1, 2, 3, 4, 5, 6, 7, 9, 12]);
    for node in caller.trusted_nodes() {
        assert_eq!(caller.hash(node), pack.hash(node));
    }
}

#[test]
fn traps_96_and_97_a_trusted_leaf() {
    let (pack, mut caller) = seven_with_chunk_0();
    let damaged = chunk(1, &pack.damaged(1));
    assert_eq!(caller.number(5, &[&damaged]), 10);
    let fitting = integrity(1, 1, &sha256(&pack.damaged(1)));
    assert_eq!(caller.number(5, &[&fitting, &damaged]), 10);
    assert_eq!(caller.ask(), (0, 1, false));
    assert_eq!(caller.number(5, &[&pack.data(1)]), 0);
    assert_eq!(caller.ask(), (0, 2, false));
}

#[test]
fn traps_98_to_100_a_held_chunk() {
    let (pack, mut caller) = seven_with_chunk_0();
    let answer = to(9, &[&ack(0, 0, 1000)]);
    let before = caller.clone();
    let again = data(0, 0, 234, pack.chunk(0));
    for came in [vec![], wrong_ones(&[1, 2, 3, 4, 5, 6, 8, 9, 10, 12])] {
        let datagram = to(5, &[&came, &again]);
        assert_eq!(caller.take(1234, 0, &datagram), (0, answer.clone()));
        caller.reply.clone_from(&before.reply);
        assert!(caller == before);
    }
    for came in [vec![], pack.hashes(&WITH_CHUNK_0)] {
        let damaged = chunk(0, &pack.damaged(0));
        assert_eq!(caller.number(5, &[&came, &damaged]), 10);
        let short = chunk(0, &pack.chunk(0)[..1023]);
        assert_eq!(caller.number(5, &[&came, &short]), 8);
    }
}

/// Traps 101 to 103 with roots made by hand: of two chunks and of three.
#[test]
fn traps_101_to_103_fillers_and_sides() {
    let answer = |root: Digest, count: u32, messages: &[&[u8]]| {
        let mut caller = Caller::new(1024 * count);
        assert_eq!(caller.start(&root, 1024 * count), 0);
        caller.opened_by_peer(5, 9);
        caller.number(5, messages)
    };
    let (bytes, zero, other) = ([7; 1024], [0; 32], [9; 32]);
    let own = sha256(&bytes);
    let left = [&node_hash(0, &other)[..], &chunk(1, &bytes)];
    assert_eq!(answer(node(&other, &own), 2, &left), 0);
    assert_eq!(answer(node(&own, &other), 2, &left), 10);
    // Five chunks: 9 is over a leaf and a filler, 13 over fillers.
    let peaks = [
        &node_hash(3, &other)[..],
        &node_hash(8, &own),
        &chunk(4, &bytes),
    ];
    let right = node(&node(&own, &zero), &zero);
    assert_eq!(answer(node(&other, &right), 5, &peaks), 0);
    let hashed = node(&node(&own, &zero), &node(&zero, &zero));
    assert_eq!(answer(node(&other, &hashed), 5, &peaks), 10);
    // A peak of zeros is no filler.
    let pair = node(&own, &other);
    let three = [
        node_hash(1, &pair),
        node_hash(4, &zero),
        node_hash(2, &other),
    ]
    .concat();
    let three = [&three[..], &chunk(0, &bytes)];
    assert_eq!(answer(node(&pair, &node(&zero, &zero)), 3, &three), 0);
    assert_eq!(answer(node(&pair, &zero), 3, &three), 10);
}

#[test]
fn trap_104_hashes_between_other_messages() {
    let pack = Pack::new(SEVEN);
    let mut caller = pack.started();
    let [a, b, c, d, e] = [12, 2, 9, 5, 3].map(|node| pack.hashes(&[node]));
    let (have, request) = (have(0, 1), request(2, 3));
    let messages = [
        &a[..],
        &have,
        &b,
        &c,
        &CHOKE,
        &d,
        &request,
        &e,
        &pack.data(0),
    ];
    assert_eq!(caller.number(5, &messages), 0);
    assert_eq!(
        (caller.has_of(0), caller.wants_of(0)),
        (vec![0, 1], vec![2, 3])
    );
    assert!(caller.state.rows[0].choked);
    assert_eq!(caller.ask(), (0, 1, false));
}

#[test]
fn trap_105_hashes_of_an_earlier_datagram() {
    let pack = Pack::new(SEVEN);
    let mut caller = pack.started();
    assert_eq!(caller.number(5, &[&pack.hashes(&WITH_CHUNK_0)]), 0);
    assert_eq!(caller.trusted_nodes(), [7]);
    assert_eq!(caller.number(5, &[&pack.data(0)]), 9);
}

/// Traps 106 and 110: hashes serve all channels, and the ACK goes back where
/// the DATA came from.
#[test]
fn traps_106_and_110_two_channels() {
    let (pack, mut caller) = seven_with_chunk_0();
    caller.opened_by_peer(6, 0xfedc_ba98);
    // Chunk 0 is held: each ACK names 0..1.
    let reply = to(0xfedc_ba98, &[&ack(0, 1, 0)]);
    assert_eq!(reply.len(), 21);
    for number in [1, 0] {
        let datagram = to(6, &[&pack.data(number)]);
        assert_eq!(caller.take(0, 0, &datagram), (0, reply.clone()));
    }
    assert_eq!(caller.ask(), (0, 2, false));
}

#[test]
fn trap_107_what_becomes_trusted() {
    let pack = Pack::new(SEVEN);
    let mut caller = pack.started();
    let before = caller.clone();
    let came = pack.hashes(&[3, 5, 9, 2, 12, 4, 6, 8, 10, 1, 0]);
    assert_eq!(caller.number(5, &[&came, &pack.data(0)]), 0);
    assert_eq!(caller.trusted_nodes(), [0, 1, 2, 3, 5, 7, 9, 12]);
    for node in 0..16 {
        let kept = caller.trusted_nodes().contains(&node);
        let wanted = if kept {
            pack.hash(node)
        } else {
            before.hash(node)
        };
        assert_eq!(caller.hash(node), wanted, "node {node}");
    }
    assert_eq!(caller.map[0], 1);
    assert!(caller.chunks[..1024] == *pack.chunk(0));
    assert!(caller.chunks[1024..] == before.chunks[1024..]);
}

/// "N=7 taken in order, least hashes."
#[test]
fn trap_108_seven_chunks_in_order() {
    let pack = Pack::new(SEVEN);
    let mut caller = pack.started();
    let needs: [&[u64]; 7] = [&WITH_CHUNK_0, &[], &[6], &[], &[10], &[], &[]];
    assert_eq!(needs.map(<[u64]>::len), [5, 0, 1, 0, 1, 0, 0]);
    for (number, nodes) in (0..).zip(needs) {
        for missing in 0..nodes.len() {
            let mut fewer = nodes.to_vec();
            fewer.remove(missing);
            assert_eq!(
                caller.number(5, &[&pack.hashes(&fewer), &pack.data(number)]),
                9
            );
        }
        assert_eq!(caller.ask(), (0, number, false));
        let datagram = to(5, &[&pack.hashes(nodes), &pack.data(number)]);
        assert_eq!(datagram.len() == 1250, number == 0);
        // The run from chunk 0 up to this one.
        let answer = to(9, &[&ack(0, number, 0)]);
        assert_eq!(caller.take(0, 0, &datagram), (0, answer));
    }
    assert_eq!(caller.ask(), (0, 7, true));
    assert!(caller.chunks.starts_with(&pack.content));
}

#[test]
fn trap_109_the_delay_is_modulo_2_to_64() {
    let (pack, mut caller) = seven_with_chunk_0();
    for (clock, time, delay) in [
        (0, 1, u64::MAX),
        (1, 0, 1),
        (5, u64::MAX, 6),
        (u64::MAX, u64::MAX, 0),
    ] {
        let datagram = to(5, &[&data(0, 0, time, pack.chunk(0))]);
        let answer = to(9, &[&ack(0, 0, delay)]);
        assert_eq!(caller.take(clock, 0, &datagram), (0, answer));
    }
}

/// "Believing a peer's size": a lone node 7 is past the end, whatever its hash.
#[test]
fn a_lone_peak_is_not_believed() {
    let pack = Pack::new(SEVEN);
    let mut caller = pack.started();
    let eight = [&pack.hashes(&[7, 11, 5, 2])[..], &pack.data(0)];
    assert_eq!(caller.number(5, &eight), 7);
}
