//! Traps 118 to 120 and 124: writing a chunk.

use super::*;

#[test]
fn trap_118_refusals() {
    let pack = Pack::new(SEVEN);
    let mut caller = pack.started();
    assert_eq!(caller.open(6).0, 0);
    for chunk in [0, 6, 7, u32::MAX] {
        for id in [0, 6, 7, 9] {
            assert_eq!(caller.write(id, chunk, 0).0, 3);
        }
    }
    for chunk in [7, 8, 31, 32, 512, u32::MAX] {
        assert_eq!(caller.write(5, chunk, 0).0, 7);
    }
    assert_eq!(caller.write(5, 0, 0).0, 13);
    assert_eq!(caller.number(5, &[&closing()]), 0);
    assert_eq!(caller.write(5, 0, 0).0, 3);
}

/// "Writing a chunk on an ID without an open row", in a table that no call
/// wrote: row 0 is calling under ID 7, row 1 is free with a 7 in it, and rows 3
/// and 5 are open under ID 7. The store has one chunk of three bytes.
#[test]
fn a_calling_row_below_the_open_one() {
    let row = |phase, peer| Row {
        phase,
        id: 7,
        peer,
        choked: false,
    };
    let mut caller = Caller::new(3);
    caller.state.length = 3;
    caller.state.rows[0] = row(Phase::Calling, 0);
    caller.state.rows[1] = row(Phase::Free, 0x11);
    caller.state.rows[3] = row(Phase::Open, 0x0a0b_0c0d);
    caller.state.rows[5] = row(Phase::Open, 0x55);
    caller.chunks[..3].copy_from_slice(b"abc");
    caller.hashes[..8].fill(0x0102_0304);
    caller.map[0] = 1;
    // Row 3's peer, INTEGRITY for 0..0, DATA for 0..0 at clock 5.
    let expected = [
        &[0x0a, 0x0b, 0x0c, 0x0d][..],
        &[4, 0, 0, 0, 0, 0, 0, 0, 0],
        &[1, 2, 3, 4].repeat(8),
        &[1, 0, 0, 0, 0, 0, 0, 0, 0],
        &[0, 0, 0, 0, 0, 0, 0, 5],
        b"abc",
    ]
    .concat();
    assert_eq!(expected.len(), 65);
    assert_eq!(caller.write(7, 0, 5), (0, expected));
    assert_eq!(caller.write(7, 1, 5).0, 7);
    caller.map[0] = 0;
    assert_eq!(caller.write(7, 0, 5).0, 13);
    assert_eq!(caller.write(7, 1, 5).0, 7);
    // A datagram to 7 still meets the calling row 0.
    assert_eq!(caller.number(7, &[&CHOKE]), 3);
    // Without row 3 it is row 5, and without that one 3, before 7 and 13.
    caller.map[0] = 1;
    caller.state.rows[3].phase = Phase::Calling;
    assert_eq!(caller.write(7, 0, 5).1[..4], [0, 0, 0, 0x55]);
    caller.state.rows[5].phase = Phase::Free;
    assert_eq!(caller.write(7, 0, 5).0, 3);
    caller.map[0] = 0;
    assert_eq!(caller.write(7, 0, 5).0, 3);
    assert_eq!(caller.write(7, 1, 5).0, 3);
    // Once row 0 opens, the chunk goes to its peer.
    caller.map[0] = 1;
    let root = caller.state.root;
    assert_eq!(caller.number(7, &[&handshake(0x99, &fixed(&root))]), 0);
    assert_eq!(caller.write(7, 0, 5).1[..4], [0, 0, 0, 0x99]);
}

/// Trap 119, and the peaks and siblings of larger packs.
#[test]
fn trap_119_powers_of_two() {
    let pack = Pack::new(1000);
    let expected = to(9, &[&pack.hashes(&[0]), &data(0, 0, 77, &pack.content)]);
    assert_eq!(pack.built().write(5, 0, 77), (0, expected));
    let pack = Pack::new(8 * 1024);
    let expected = to(9, &[&pack.hashes(&[7, 11, 5, 2]), &pack.data(0)]);
    assert_eq!(pack.built().write(5, 0, 0), (0, expected));
}

/// Trap 120: "0..3, 2..3, 4..5, 1..1, 6..6", and 1,250 bytes.
#[test]
fn trap_120_the_sending_order() {
    let pack = Pack::new(SEVEN);
    let mut caller = pack.built();
    let clock = 0x0123_4567_89ab_cdef;
    let expected = to(
        9,
        &[
            &integrity(0, 3, &pack.hash(3)),
            &integrity(2, 3, &pack.hash(5)),
            &integrity(4, 5, &pack.hash(9)),
            &integrity(1, 1, &pack.hash(2)),
            &integrity(6, 6, &pack.hash(12)),
            &data(0, 0, clock, pack.chunk(0)),
        ],
    );
    assert_eq!(expected.len(), 1_250);
    assert_eq!(caller.write(5, 0, clock), (0, expected));
    let expected = to(9, &[&pack.hashes(&[3, 9, 12]), &pack.data(6)]);
    assert_eq!(caller.write(5, 6, 0), (0, expected));
    let expected = to(9, &[&pack.hashes(&[3, 9, 8, 12]), &pack.data(5)]);
    assert_eq!(caller.write(5, 5, 0), (0, expected));
}

/// The most hashes go out with the first 256 chunks of 511: nine peaks, eight
/// siblings.
#[test]
fn the_longest_datagram() {
    let pack = Pack::new(511 * 1024);
    let (number, datagram) = pack.built().write(5, 255, 0);
    assert_eq!((number, datagram.len()), (0, 4 + 17 * 41 + 17 + 1024));
}

/// B4: what stands in the hash room goes out, trusted or not; only the map
/// decides whether a chunk is held.
#[test]
fn hashes_go_out_as_they_stand() {
    let pack = Pack::new(2 * 1024);
    let mut caller = pack.started();
    caller.map[0] |= 1;
    caller.hashes[16..24].fill(0x0102_0304);
    let sibling = [1, 2, 3, 4].repeat(8).try_into().unwrap();
    let bytes = caller.chunks[..1024].to_vec();
    let expected = to(
        9,
        &[
            &integrity(0, 1, &pack.root()),
            &integrity(1, 1, &sibling),
            &data(0, 0, 3, &bytes),
        ],
    );
    assert_eq!(caller.write(5, 0, 3), (0, expected));
    assert_eq!(caller.write(5, 1, 3).0, 13);
}

/// What is written for any chunk is taken by a fresh store, in any order.
#[test]
fn written_chunks_are_taken() {
    for count in (1..=20).chain([31, 32, 33]) {
        let pack = Pack::new(1024 * count - 6);
        let mut server = pack.built();
        let mut van = pack.started();
        // The server's peer is channel 9, the van's own is 5.
        assert_eq!(van.number(5, &[&closing()]), 0);
        van.opened_by_peer(9, 5);
        for k in 0..count {
            let number = 521 * k % count;
            let (_, datagram) = server.write(5, number, 1000);
            let (taken, answer) = van.take(1007, 0, &datagram);
            assert_eq!(taken, 0);
            assert_eq!(answer, to(5, &[&plain::ack_for(&van, number, 7)]));
            assert_eq!(server.take(0, 0, &answer), (0, vec![]));
        }
        assert_eq!(van.ask(), (0, count, true));
        assert!(van.chunks.starts_with(&pack.content));
        assert_eq!(van.trusted_nodes(), server.trusted_nodes());
        assert!(server.has_of(0).into_iter().eq(0..count));
    }
}
