//! What a store shows without a call.

use crate::support::{bytes, content, Pair, SERVER, SEVEN, VAN};
use ppspp::{Channel, Phase, Store};

/// The server takes in a datagram from the van.
fn told(server: &mut Store, digits: &str) {
    let datagram = bytes(&format!("00000005 {digits}"));
    assert_eq!(server.take(0, 0, &datagram), Ok(&[][..]));
}

/// The chunks for which something is true.
fn those(is: impl Fn(u32) -> bool) -> Vec<u32> {
    (0..600).filter(|&chunk| is(chunk)).collect()
}

#[test]
fn chunks_that_are_held() {
    let mut pair = Pair::new(SEVEN);
    for chunk in [6, 1] {
        let datagram = pair.written(chunk, 0);
        pair.van.take(0, 0, &datagram).expect("a true chunk");
    }
    let van = &pair.van;
    assert_eq!(van.missing().collect::<Vec<_>>(), [0, 2, 3, 4, 5]);
    assert_eq!(those(|chunk| van.holds(chunk)), [1, 6]);
    let content = content(SEVEN);
    assert_eq!(van.chunk(1), Some(&content[1_024..2_048]));
    assert_eq!(van.chunk(6), Some(&content[6_144..7_162]));
    assert_eq!(those(|chunk| van.chunk(chunk).is_some()), [1, 6]);
    assert_eq!(van.bytes().len(), 7_162);
}

#[test]
fn chunks_past_the_first_word_of_the_map() {
    let mut pair = Pair::new(65 * 1_024);
    for chunk in [31, 32, 64] {
        let datagram = pair.written(chunk, 0);
        pair.van.take(0, 0, &datagram).expect("a true chunk");
    }
    assert_eq!(those(|chunk| pair.van.holds(chunk)), [31, 32, 64]);
    assert_eq!(pair.van.missing().count(), 62);
}

#[test]
fn channels_are_the_rows_in_use() {
    let Pair {
        mut van,
        mut server,
        ..
    } = Pair::new(SEVEN);
    let open = Channel {
        row: 0,
        id: VAN,
        peer: SERVER,
        phase: Phase::Open,
        choked: false,
    };
    let calling = Channel {
        row: 1,
        id: 18,
        peer: 0,
        phase: Phase::Calling,
        choked: false,
    };
    assert_eq!(van.channels().collect::<Vec<_>>(), [open]);
    van.open(18).expect("a free row");
    assert_eq!(van.channels().collect::<Vec<_>>(), [open, calling]);
    assert_eq!(van.channel(18), Some(calling));
    assert_eq!(van.channel(0), None);
    // The server closes; the row is free, and the next one to be used.
    let closing = server
        .compose(VAN)
        .and_then(|c| c.close())
        .expect("sound")
        .finish();
    van.take(0, 0, closing).expect("a closing HANDSHAKE");
    assert_eq!(van.channels().collect::<Vec<_>>(), [calling]);
    van.open(19).expect("a free row");
    assert_eq!(van.channel(19).map(|channel| channel.row), Some(0));
}

#[test]
fn choke_mark() {
    let mut server = Pair::new(SEVEN).server;
    let choked = |server: &Store| server.channel(SERVER).map(|channel| channel.choked);
    assert_eq!(choked(&server), Some(false));
    told(&mut server, "0a");
    assert_eq!(choked(&server), Some(true));
    told(&mut server, "0b");
    assert_eq!(choked(&server), Some(false));
}

#[test]
fn what_a_peer_has_and_wants() {
    let mut server = Pair::new(70 * 1_024).server;
    told(&mut server, "08 0000001e 00000045"); // REQUEST 30..69
    told(&mut server, "09 00000020 00000042"); // CANCEL 32..66
    told(&mut server, "03 00000043 00000043"); // HAVE 67
    assert_eq!(those(|chunk| server.peer_wants(0, chunk)), [30, 31, 68, 69]);
    assert_eq!(those(|chunk| server.peer_has(0, chunk)), [67]);
    assert_eq!(those(|chunk| server.peer_has(1, chunk)), []);
    told(&mut server, "02 0000001f 00000020 0000000000000001"); // ACK 31..32
    assert_eq!(those(|chunk| server.peer_has(0, chunk)), [31, 32, 67]);
    assert_eq!(those(|chunk| server.peer_wants(0, chunk)), [30, 68, 69]);
}

/// The nodes that a store trusts, some that are no nodes of the tree looked at too.
fn trusted(store: &Store) -> Vec<u64> {
    let far = [1 << 32, (1 << 32) + 7, u64::MAX];
    (0..2_000)
        .chain(far)
        .filter(|&node| store.trusts(node))
        .collect()
}

#[test]
fn nodes_that_are_trusted() {
    let mut pair = Pair::new(SEVEN);
    // The root is node 7. All nodes wholly inside the pack: 11 is over chunks 4 to 7, 13 over 6 and 7.
    let inside = [0, 1, 2, 3, 4, 5, 6, 7, 8, 9, 10, 12];
    assert_eq!(trusted(&pair.server), inside);
    assert_eq!(trusted(&pair.van), [7]);
    // With chunk 0 come the peaks 3, 9 and 12, its leaf, node 1 above it, and the siblings 2 and 5.
    let datagram = pair.written(0, 0);
    pair.van.take(0, 0, &datagram).expect("a true chunk");
    assert_eq!(trusted(&pair.van), [0, 1, 2, 3, 5, 7, 9, 12]);
}

#[test]
fn hashes_stand_by_node_number() {
    let server = Pair::new(SEVEN).server;
    let content = content(SEVEN);
    for (chunk, bytes) in content.chunks(1_024).enumerate() {
        let words = server.view().hashes[16 * chunk..][..8].iter();
        let hash = words.flat_map(|word| word.to_be_bytes());
        assert!(hash.eq(second::sha256::sha256(bytes)), "chunk {chunk}");
    }
}

#[test]
fn rows_are_told_apart() {
    let Pair {
        mut server, order, ..
    } = Pair::new(70 * 1_024);
    let mut second = Store::start(order).expect("the same length");
    let calling = second.open(1).expect("a free row");
    server.take(0, 6, calling).expect("the order's HANDSHAKE");
    let have = bytes("00000006 03 00000040 00000041");
    server.take(0, 0, &have).expect("sound");
    assert_eq!(those(|chunk| server.peer_has(0, chunk)), []);
    assert_eq!(those(|chunk| server.peer_has(1, chunk)), [64, 65]);
    // Of a free row nothing is told, though its bits stay.
    let closing = bytes("00000006 00 00000000 ff");
    server.take(0, 0, &closing).expect("a closing HANDSHAKE");
    assert_eq!(those(|chunk| server.peer_has(1, chunk)), []);
}
