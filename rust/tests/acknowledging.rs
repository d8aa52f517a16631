//! What the ACK of a chunk names. By 02, No. 2, it is the biggest complete interval that covers the chunk: under ranges
//! the longest run of held chunks around it, under bins the largest whole subtree inside the pack all of whose chunks
//! are held. Chunk i is bin 2i, and a bin is first + last of its chunks.

use crate::support::{bytes, Pair, BINS, RANGES, SERVER, VAN};
use ppspp::{messages, Addressing, Lend, Message, OwnedRooms, Store};

/// A server of n chunks, and an empty van.
fn pair(addressing: Addressing, n: u32) -> Pair {
    Pair::under(addressing, 1_024 * n)
}

/// A van that has taken chunks of n, in this order.
fn holding(addressing: Addressing, n: u32, chunks: impl IntoIterator<Item = u32>) -> Pair {
    let mut pair = pair(addressing, n);
    for chunk in chunks {
        let datagram = pair.written(chunk, 0);
        pair.van.take(0, 0, &datagram).expect("a true chunk");
    }
    pair
}

/// The van takes a chunk, for the first time or again. Its ACK, after 5 microseconds, must name what these digits say.
fn taken(pair: &mut Pair, chunk: u32, named: &str) {
    let datagram = pair.written(chunk, 2);
    let wanted = bytes(&format!("{SERVER:08x} 02 {named} 0000000000000005"));
    let ack = pair.van.take(7, 0, &datagram).expect("a true chunk");
    assert_eq!(ack, wanted, "chunk {chunk}");
}

/// The same under ranges, with the first and the last chunk.
fn run(pair: &mut Pair, chunk: u32, first: u32, last: u32) {
    taken(pair, chunk, &format!("{first:08x} {last:08x}"));
}

/// The same under bins.
fn subtree(pair: &mut Pair, chunk: u32, bin: u32) {
    taken(pair, chunk, &format!("{bin:08x}"));
}

#[test]
fn gap_that_is_filled_joins_two_runs() {
    let mut pair = pair(RANGES, 7);
    run(&mut pair, 0, 0, 0);
    run(&mut pair, 2, 2, 2);
    run(&mut pair, 1, 0, 2);
    // Again: nothing is stored, and the run is the same.
    run(&mut pair, 0, 0, 2);
    run(&mut pair, 1, 0, 2);
    run(&mut pair, 2, 0, 2);
    // Behind a gap, which stays; the last chunk first.
    run(&mut pair, 6, 6, 6);
    run(&mut pair, 4, 4, 4);
    run(&mut pair, 5, 4, 6);
    run(&mut pair, 2, 0, 2);
    run(&mut pair, 6, 4, 6);
    run(&mut pair, 3, 0, 6);
    run(&mut pair, 6, 0, 6);
}

/// Packs that end with a word of the map, and one chunk behind it.
#[test]
fn runs_go_on_from_word_to_word() {
    for n in [1, 31, 32, 33, 64, 65, 512] {
        let mut pair = holding(RANGES, n, 0..n);
        for chunk in [0, n / 2, n - 1] {
            run(&mut pair, chunk, 0, n - 1);
        }
    }
    // All of 65 but chunk 32, which is the first of its word.
    let mut pair = holding(RANGES, 65, (0..65).filter(|&chunk| chunk != 32));
    run(&mut pair, 0, 0, 31);
    run(&mut pair, 31, 0, 31);
    run(&mut pair, 33, 33, 64);
    run(&mut pair, 64, 33, 64);
    run(&mut pair, 32, 0, 64);
    // All of 65 but chunks 31 and 63, which are the last of theirs.
    let mut pair = holding(RANGES, 65, (0..65).filter(|&chunk| chunk % 32 != 31));
    run(&mut pair, 30, 0, 30);
    run(&mut pair, 32, 32, 62);
    run(&mut pair, 64, 64, 64);
    run(&mut pair, 63, 32, 64);
    run(&mut pair, 31, 0, 64);
}

#[test]
fn subtrees_of_four() {
    // Chunks 1 and 2 stand side by side, but under no node of their own.
    let mut pair = pair(BINS, 4);
    subtree(&mut pair, 1, 2);
    subtree(&mut pair, 2, 4);
    subtree(&mut pair, 1, 2);
    // Bin 1 is over 0..1, 3 over 0..3.
    subtree(&mut pair, 0, 1);
    subtree(&mut pair, 1, 1);
    subtree(&mut pair, 2, 4);
    subtree(&mut pair, 3, 3);
    subtree(&mut pair, 0, 3);
}

/// Chunks and the bins of their ACKs where the pack is whole.
#[test]
fn subtrees_of_whole_packs() {
    let cases: [(u32, &[(u32, u32)]); 9] = [
        (1, &[(0, 0)]),
        (2, &[(0, 1), (1, 1)]),
        // The peaks of 3 are bins 1 and 4, those of 5 bins 3 and 8.
        (3, &[(0, 1), (1, 1), (2, 4)]),
        (5, &[(0, 3), (3, 3), (4, 8)]),
        // Those of 7 are bins 3, 9 and 12: bins 13, 11 and 7 are over chunk 7 too.
        (7, &[(0, 3), (3, 3), (4, 9), (5, 9), (6, 12)]),
        (8, &[(0, 7), (3, 7), (4, 7), (6, 7), (7, 7)]),
        // 0..31 is bin 31, chunk 32 is 64.
        (33, &[(0, 31), (31, 31), (32, 64)]),
        // 0..63 is bin 63, chunk 64 is 128.
        (65, &[(0, 63), (31, 63), (32, 63), (63, 63), (64, 128)]),
        (512, &[(0, 511), (256, 511), (511, 511)]),
    ];
    for (n, named) in cases {
        let mut pair = holding(BINS, n, 0..n);
        for &(chunk, bin) in named {
            subtree(&mut pair, chunk, bin);
        }
    }
}

/// A pair whose van's map has every bit set that stands past its n chunks, as no call of ours leaves it.
fn spoilt(pair: Pair, n: u32) -> Pair {
    let Pair { server, van, order } = pair;
    let mut rooms = van.into_rooms();
    for (word, bits) in (0..).zip(rooms.lend().map.iter_mut()) {
        let inside = n.saturating_sub(32 * word).min(32);
        *bits |= u32::MAX.checked_shl(inside).unwrap_or(0);
    }
    let van = Store::resume(rooms);
    Pair { server, van, order }
}

/// A pair of n chunks; the van's map room has a word more than it needs.
fn roomy(addressing: Addressing, n: u32) -> Pair {
    let Pair {
        mut server, order, ..
    } = pair(addressing, n);
    let rooms = OwnedRooms::for_length(1_024 * (n + 32));
    let mut van = Store::start_in(rooms, order).expect("larger rooms");
    server.close(SERVER).expect("it is open");
    let calling = van.open(VAN).expect("a free row");
    let answering = server
        .take(0, SERVER, calling)
        .expect("the order's HANDSHAKE");
    van.take(0, 0, answering).expect("it is answered");
    Pair { server, van, order }
}

/// Bits past the last chunk are no chunks, whatever they are.
#[test]
fn bits_past_the_pack_do_not_show() {
    for n in [7, 32, 33, 65] {
        let mut pair = spoilt(roomy(RANGES, n), n);
        assert_eq!(pair.van.view().map.last(), Some(&u32::MAX));
        run(&mut pair, n - 1, n - 1, n - 1);
        for chunk in (0..n - 1).rev() {
            run(&mut pair, chunk, chunk, n - 1);
        }
        run(&mut pair, n - 1, 0, n - 1);
    }
    // The bins of the last chunk alone, and of the first and the last one of the whole pack.
    for (n, alone, first, last) in [
        (7, 12, 3, 12),
        (32, 62, 31, 31),
        (33, 64, 31, 64),
        (65, 128, 63, 128),
    ] {
        let mut pair = spoilt(roomy(BINS, n), n);
        subtree(&mut pair, n - 1, alone);
        for chunk in 0..n - 1 {
            let datagram = pair.written(chunk, 0);
            pair.van.take(0, 0, &datagram).expect("a true chunk");
        }
        subtree(&mut pair, 0, first);
        subtree(&mut pair, n - 1, last);
    }
}

/// The biggest of all intervals that cover a chunk and are held, by their definition.
fn biggest(addressing: Addressing, held: &[bool], chunk: usize) -> (u32, u32) {
    let n = held.len();
    let all: Vec<(usize, usize)> = if addressing == BINS {
        let sizes = (0..10).map(|height| 1 << height);
        let subtrees = sizes.map(|size| (chunk / size * size, chunk / size * size + size - 1));
        subtrees.filter(|&(_, last)| last < n).collect()
    } else {
        let of = |first| (chunk..n).map(move |last| (first, last));
        (0..=chunk).flat_map(of).collect()
    };
    let complete = all
        .into_iter()
        .filter(|&(first, last)| held[first..=last].iter().all(|&held| held));
    let (first, last) = complete
        .max_by_key(|(first, last)| last - first)
        .expect("the chunk");
    (first as u32, last as u32)
}

/// Chunks in an order without a pattern, each of them some time, some of them again.
#[test]
fn chunks_in_any_order() {
    for (addressing, n) in [1, 2, 3, 6, 13, 32, 33, 47]
        .map(|n| [(BINS, n), (RANGES, n)])
        .concat()
    {
        let (mut pair, mut held) = (pair(addressing, n), vec![false; n as usize]);
        let mut number = 7_574u32;
        while held.contains(&false) {
            // Numerical Recipes' congruence; its high bits.
            number = number.wrapping_mul(1_664_525).wrapping_add(1_013_904_223);
            let chunk = (number >> 16) % n;
            held[chunk as usize] = true;
            let datagram = pair.written(chunk, 0);
            let ack = pair.van.take(0, 0, &datagram).expect("a true chunk");
            let (first, last) = biggest(addressing, &held, chunk as usize);
            let wanted = Message::Ack {
                first,
                last,
                delay: 0,
            };
            assert!(
                messages(addressing, ack).eq([Ok((4, wanted))]),
                "{chunk} of {held:?}"
            );
        }
    }
}

/// A sender need not repeat what a later ACK names, though the earlier ones were lost.
#[test]
fn one_ack_is_enough_for_a_run() {
    for (addressing, last) in [(RANGES, 6), (BINS, 7)] {
        let mut pair = pair(addressing, 7);
        let request = pair.van.compose(SERVER).and_then(|c| c.request(0, last));
        let request = request.expect("it fits").finish();
        pair.server.take(0, 0, request).expect("sound");
        for chunk in [1, 0, 3] {
            let datagram = pair.written(chunk, 0);
            pair.van.take(0, 0, &datagram).expect("a true chunk");
        }
        let datagram = pair.written(2, 0);
        let ack = pair.van.take(0, 0, &datagram).expect("a true chunk");
        pair.server.take(0, 0, ack).expect("sound");
        let those = |is: &dyn Fn(u32) -> bool| (0..7).filter(|&c| is(c)).collect::<Vec<_>>();
        assert_eq!(those(&|chunk| pair.server.peer_wants(0, chunk)), [4, 5, 6]);
        assert_eq!(those(&|chunk| pair.server.peer_has(0, chunk)), [0, 1, 2, 3]);
    }
}
