//! Whole downloads.

use crate::support::{built, content, node, Pair, BINS, RANGES, SERVER};
use ppspp::{sizes, Addressing, Held, Message, Order, Refused, Store};
use second::store::Store as Second;

/// Downloads a pack of a length, its chunks in some order, each with the first and the last chunk that its ACK names.
fn download(addressing: Addressing, length: u32, steps: impl Iterator<Item = (u32, [u32; 2])>) {
    let mut pair = Pair::under(addressing, length);
    let n = pair.order.chunk_count();
    let row = pair.server.channel(SERVER).expect("it is open").row;
    for (count, (chunk, [first, last])) in (1..).zip(steps) {
        let datagram = pair.written(chunk, 1_000);
        let ack = pair.van.take(1_250, 0, &datagram).expect("a true chunk");
        let delay = 250;
        let wanted = Message::Ack { first, last, delay };
        assert_eq!(ppspp::destination(ack), Some(SERVER));
        assert!(ppspp::messages(addressing, ack).eq([Ok((4, wanted))]));
        assert_eq!(pair.server.take(0, 0, ack), Ok(&[][..]));
        assert!(pair.server.peer_has(row, chunk));
        let held = Held {
            count,
            whole: count == n,
        };
        assert_eq!(pair.van.ask(), Ok(held));
    }
    assert_eq!(pair.van.bytes(), content(length));
    assert_eq!(pair.van.missing().next(), None);
}

/// The chunks before it are held, and none behind it: it ends the run. The largest subtree that it ends has as many
/// chunks as the lowest one bit of the number behind it says.
#[test]
fn chunks_in_rising_order() {
    for length in [1, 1_023, 1_024, 1_025, 7_162, 33 * 1_024, 524_288] {
        let n = sizes::chunk_count(length);
        download(RANGES, length, (0..n).map(|chunk| (chunk, [0, chunk])));
        let subtree = |chunk: u32| [chunk + 1 - (1 << (chunk + 1).trailing_zeros()), chunk];
        download(BINS, length, (0..n).map(|chunk| (chunk, subtree(chunk))));
    }
}

/// The chunks behind it are held, and none before it: it begins the run. The largest subtree that it begins has as many
/// chunks as a power of two that divides its number, and ends inside the pack.
#[test]
fn chunks_in_falling_order() {
    for length in [1_025, 7_162, 8_192, 500_000] {
        let n = sizes::chunk_count(length);
        let falling = (0..n).rev();
        let run = falling.clone().map(|chunk| (chunk, [chunk, n - 1]));
        download(RANGES, length, run);
        let subtree = |chunk: u32| {
            let counts = [1, 2, 4, 8, 16, 32, 64, 128, 256].into_iter();
            let inside = counts.filter(|&count| chunk.is_multiple_of(count) && chunk + count <= n);
            [chunk, chunk + inside.max().expect("1") - 1]
        };
        download(BINS, length, falling.map(|chunk| (chunk, subtree(chunk))));
    }
}

#[test]
fn roots_are_those_of_the_second_program() {
    for length in [1, 1_024, 1_025, 3_072, 7_162, 8_192, 17_000, 524_288] {
        let content = content(length);
        let second = Second::build(&content).expect("a pack's length");
        for addressing in [BINS, RANGES] {
            let order = built(addressing, length).order();
            assert_eq!(order.expect("it was built").root, *second.root());
        }
    }
}

#[test]
fn root_of_three_bytes_is_their_hash() {
    // FIPS 180-4's vector for "abc".
    let root = crate::support::bytes(
        "ba7816bf 8f01cfea 414140de 5dae2223 b00361a3 96177a9c b410ff61 f20015ad",
    );
    let store = Store::build(Order::to_build(3), b"abc").expect("a pack's length");
    assert_eq!(store.order().expect("it was built").root[..], root);
}

#[test]
fn chunk_that_is_held_is_checked_again() {
    let mut pair = Pair::new(7_162);
    let datagram = pair.written(3, 0);
    pair.van.take(0, 0, &datagram).expect("a true chunk");
    let mut garbled = datagram.clone();
    *garbled.last_mut().expect("a chunk") ^= 1;
    let leaf = Refused::mismatch(node(6));
    assert_eq!(pair.van.take(0, 0, &garbled), Err(leaf));
    assert!(pair.van.take(9, 0, &datagram).is_ok());
    assert_eq!(pair.van.ask().map(|held| held.count), Ok(1));
}

#[test]
fn store_starts_anew_in_its_rooms() {
    let mut pair = Pair::new(7_162);
    let mut van = pair.server.clone();
    van.restart(pair.order).expect("the same length");
    assert_eq!(van.order(), Some(pair.order));
    assert_eq!(
        van.ask(),
        Ok(Held {
            count: 0,
            whole: false
        })
    );
    assert_eq!(van.channels().next(), None);
    let abc = Order::to_build(3).addressing(BINS);
    pair.van
        .rebuild(abc, b"abc")
        .expect("rooms that are larger");
    assert_eq!(
        pair.van.ask(),
        Ok(Held {
            count: 1,
            whole: true
        })
    );
    assert_eq!(pair.van.bytes(), b"abc");
    assert_eq!(pair.van.addressing(), BINS);
}
