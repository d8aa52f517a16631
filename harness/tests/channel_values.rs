//! Whole downloads from one store to another, and the values that 01 names,
//! through the proved entry points of the channels, under either method. Each
//! call goes to `second` too, and must give and leave the same.

use harness::caller::Caller;
use harness::downloads::{Download, DELAY, ITS};
use harness::intervals::interval;
use harness::packets::*;
use harness::packs::Pack;
use harness::random::Random;
use second::wire::Addressing;
use second::{answer, hex};

/// The length of 01's pack of seven chunks.
const SEVEN: u32 = 7_162;

/// Brings a chunk over, and gives the number of hashes. The ACK names what a plain
/// reading of 02, No. 2, finds among the chunks brought over.
fn bring(download: &mut Download, chunk: u32, least: bool) -> usize {
    let (hashes, acknowledgement) = download.bring(chunk, least);
    let (addressing, count) = (download.addressing, download.pack.count());
    let (first, last) = interval(addressing, &download.brought, count, chunk);
    let wanted = datagram(ITS, &[ack(addressing, first, last, DELAY)]);
    assert_eq!(acknowledgement, wanted, "chunk {chunk} of {count}");
    download.check_known();
    hashes
}

/// "N=7 taken in order, least hashes: chunk 0 the five above; 2 needs leaf 6; 4
/// needs leaf 10; 1, 3, 5, 6 none. The chunk 0 datagram has 1,250 bytes." Under
/// bins, each of its six messages has four bytes fewer.
#[test]
fn seven_chunks_in_order() {
    for (addressing, size) in METHODS.into_iter().zip([1_226, 1_250]) {
        let mut random = Random::new(7);
        let pack = Pack::new(&mut random, SEVEN);
        let mut download = Download::new(addressing, &mut random, pack);
        let (number, first) = download.whole.write(ITS, 0, 0);
        assert_eq!((number, first.len()), (0, size));
        for (chunk, wanted) in (0..).zip([5, 0, 1, 0, 1, 0, 0]) {
            assert_eq!(download.store.ask(), (0, chunk, 0));
            assert_eq!(bring(&mut download, chunk, true), wanted, "chunk {chunk}");
        }
        download.check_whole();
    }
}

/// Packs of other sizes, in any order, with all hashes or the least.
#[test]
fn downloads_in_any_order() {
    let counts = [1, 2, 3, 5, 8, 31, 32, 33, 40, 100, 257, 512];
    downloads(&counts, |random, order| random.shuffle(order));
}

/// The same in order and from the end; and the even chunks, then the odd ones.
#[test]
fn downloads_in_an_order() {
    let counts = [8, 33, 65, 100, 257];
    downloads(&counts, |_, _| {});
    downloads(&counts, |_, order| order.reverse());
    downloads(&counts, |_, order| order.sort_by_key(|chunk| chunk % 2));
}

fn downloads(counts: &[u32], arrange: impl Fn(&mut Random, &mut [u32])) {
    for addressing in METHODS {
        for (seed, &count) in (0..).zip(counts) {
            let mut random = Random::new(seed);
            let length = 1_024 * (count - 1) + 1 + random.below(1_024);
            let pack = Pack::new(&mut random, length);
            let mut download = Download::new(addressing, &mut random, pack);
            let mut order: Vec<u32> = (0..count).collect();
            arrange(&mut random, &mut order);
            for chunk in order {
                bring(&mut download, chunk, random.one_in(2));
            }
            download.check_whole();
        }
    }
}

/// "L=0: 12; 524,288: taken; 524,289: 12."
#[test]
fn lengths() {
    let mut random = Random::new(1);
    let mut caller = Caller::new(&mut random, 524_289);
    let content = random.bytes(524_289);
    for (length, number) in [(0, 12), (524_288, 0), (524_289, 12)] {
        for method in METHODS.map(Addressing::number) {
            let content = &content[..length as usize];
            let started = caller.start(&[3; 32], length, method);
            let built = caller.build(length, method, content);
            assert_eq!([started, built], [number; 2], "{length}");
        }
    }
}

/// "Datagram of 3 bytes: 1; 4: 5 or done; 2,049: 1."
#[test]
fn sizes() {
    for addressing in METHODS {
        let started = Caller::started(addressing, &mut Random::new(2), &[3; 32], SEVEN);
        let mut caller = started.opened(5, 9);
        assert_eq!(caller.take(0, 0, &[0, 0, 0]).0, 1);
        assert_eq!(caller.take(0, 0, &datagram(6, &[])).0, 5);
        assert_eq!(caller.take(0, 0, &datagram(5, &[])).0, 0);
        let chokes = |size: usize| datagram(5, &[vec![CHOKE; size - 4]]);
        assert_eq!(caller.take(0, 0, &chokes(2_048)).0, 0);
        assert_eq!(caller.take(0, 0, &chokes(2_049)).0, 1);
    }
}

/// "16 open: 6; one closed: its row is used." Opened by us and by peers in turn.
#[test]
fn sixteen_channels() {
    METHODS.into_iter().for_each(sixteen);
}

fn sixteen(addressing: Addressing) {
    let root = [3; 32];
    let mut caller = Caller::started(addressing, &mut Random::new(3), &root, SEVEN);
    let options = fixed(addressing, &root);
    let opening = |source| datagram(0, &[handshake(source, &options)]);
    for id in 1..=16 {
        let number = match id % 2 {
            0 => caller.open(id).0,
            _ => caller.take(0, id, &opening(100 + id)).0,
        };
        assert_eq!((number, caller.row(id)), (0, Some(id as usize - 1)));
    }
    let full = u32::from(answer::TABLE_FULL);
    assert_eq!(caller.open(17).0, full);
    assert_eq!(caller.take(0, 17, &opening(117)).0, full);
    let closing = datagram(7, &[handshake(0, &END_ONLY)]);
    assert_eq!(caller.take(0, 0, &closing), (0, vec![]));
    assert_eq!(caller.row(7), None);
    let (number, reply) = caller.take(0, 17, &opening(117));
    let ours = datagram(117, &[handshake(17, &options)]);
    assert_eq!((number, reply, caller.row(17)), (0, ours, Some(6)));
    assert_eq!(caller.open(18).0, full);
}

/// "Range 6..6 with N=7 taken, 7..7: 7."
#[test]
fn ranges() {
    for addressing in METHODS {
        let started = Caller::started(addressing, &mut Random::new(4), &[3; 32], SEVEN);
        let mut caller = started.opened(5, 9);
        for kind in [HAVE, REQUEST, CANCEL] {
            for (chunk, number) in [(6, 0), (7, 7)] {
                let message = ranged(addressing, kind, chunk, chunk);
                assert_eq!(caller.take(0, 0, &datagram(5, &[message])).0, number);
            }
        }
    }
}

/// The replay program's example: an order of one byte under a root of zeros, a
/// peer's HANDSHAKE from channel 0x11, and a keepalive to a channel that no row
/// has.
#[test]
fn the_replayed_example() {
    let mut random = Random::new(5);
    let ranges = Addressing::Ranges;
    let mut caller = Caller::started(ranges, &mut random, &[0; 32], 1);
    let opening = datagram(0, &[handshake(0x11, &fixed(ranges, &[0; 32]))]);
    let (number, reply) = caller.take(0, 1, &opening);
    let root = "00".repeat(32);
    let wanted = [
        "00000011",
        "00",
        "00000001",
        "00010101020020",
        &root,
        "0301040206020900000400ff",
    ];
    let wanted = wanted.concat();
    assert_eq!((number, hex::encode(&reply)), (0, wanted));
    assert_eq!(caller.take(0, 2, &[0, 0, 0, 0x22]), (5, vec![]));
    assert_eq!(caller.ask(), (0, 0, 0));
}
