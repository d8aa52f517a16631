//! Trap 129 and 02's No. 2: what an ACK names. All names are worked out by hand.

use super::*;

/// A server that has a pack, and a van that takes it from there.
struct Depot {
    pack: Pack,
    server: Caller,
    van: Caller,
}

impl Depot {
    fn new(addressing: Addressing, count: u32) -> Self {
        let pack = Pack::new(1024 * count - 6);
        Depot {
            server: pack.built_under(addressing),
            van: pack.started_under(addressing),
            pack,
        }
    }

    /// The van has all of the pack already.
    fn whole(addressing: Addressing, count: u32) -> Self {
        let mut depot = Depot::new(addressing, count);
        depot.van = depot.server.clone();
        depot
    }

    /// The van takes a chunk, held or not, and replies.
    fn reply(&mut self, chunk: u32) -> Vec<u8> {
        let (number, mut datagram) = self.server.write(5, chunk, 20);
        assert_eq!(number, 0);
        datagram[..4].copy_from_slice(&5u32.to_be_bytes());
        let (number, reply) = self.van.take(27, 0, &datagram);
        assert_eq!(number, 0);
        reply
    }

    /// The ACK for a chunk names the range `first` to `last`.
    fn range(&mut self, chunk: u32, first: u32, last: u32) {
        let wanted = to(9, &[&ack(first, last, 7)]);
        assert_eq!(self.reply(chunk), wanted, "{chunk}");
    }

    /// The ACK for a chunk names a bin.
    fn bin(&mut self, chunk: u32, bin: u32) {
        let wanted = to(9, &[&bins::ack(bin, 7)]);
        assert_eq!(self.reply(chunk), wanted, "{chunk}");
    }
}

#[test]
fn trap_129_a_run_is_joined_on_both_sides() {
    for count in [3, 7, 32, 33] {
        let mut depot = Depot::new(Addressing::Ranges, count);
        depot.range(0, 0, 0);
        depot.range(2, 2, 2);
        depot.range(1, 0, 2);
        // Again, any of them.
        for chunk in [0, 1, 2, 1] {
            depot.range(chunk, 0, 2);
        }
        assert_eq!(depot.van.ask(), (0, 3, count == 3));
    }
}

#[test]
fn a_gap_ends_a_run() {
    let mut depot = Depot::new(Addressing::Ranges, 7);
    depot.range(1, 1, 1);
    depot.range(0, 0, 1);
    depot.range(3, 3, 3);
    depot.range(4, 3, 4);
    // A chunk that is refused does not close it.
    let leaf = depot.pack.hashes(&[6]);
    let damaged = data(2, 2, 0, &depot.pack.damaged(2));
    assert_eq!(depot.van.number(5, &[&leaf, &damaged]), 10);
    depot.range(1, 0, 1);
    depot.range(3, 3, 4);
    // Nor is a held one acknowledged if it is refused.
    let damaged = data(4, 4, 0, &depot.pack.damaged(4));
    assert_eq!(depot.van.take(0, 0, &to(5, &[&damaged])), (10, vec![]));
    depot.range(6, 6, 6);
    depot.range(2, 0, 4);
    depot.range(6, 6, 6);
    depot.range(5, 0, 6);
}

/// Bits past N-1 are no chunks', neither in the last word nor behind it.
#[test]
fn the_last_chunk_and_bits_past_it() {
    for count in [7, 31, 32, 33, 63, 64, 65] {
        for junk in [0, 1, 64] {
            let mut depot = Depot::new(Addressing::Ranges, count);
            for place in count..count + junk {
                depot.van.map[place as usize / 32] |= 1 << (place % 32);
            }
            depot.range(count - 1, count - 1, count - 1);
            depot.range(count - 3, count - 3, count - 3);
            depot.range(count - 2, count - 3, count - 1);
            depot.range(count - 1, count - 3, count - 1);
            assert_eq!(depot.van.ask(), (0, 3, false));
        }
    }
}

#[test]
fn whole_packs_under_ranges() {
    for count in [1, 32, 33, 64, 65] {
        let mut built = Depot::whole(Addressing::Ranges, count);
        let mut rising = Depot::new(Addressing::Ranges, count);
        let mut falling = Depot::new(Addressing::Ranges, count);
        for chunk in 0..count {
            built.range(chunk, 0, count - 1);
            rising.range(chunk, 0, chunk);
            falling.range(count - 1 - chunk, count - 1 - chunk, count - 1);
        }
        assert_eq!(rising.van.ask(), (0, count, true));
        assert_eq!(falling.van.ask(), (0, count, true));
    }
}

#[test]
fn subtrees_of_four_chunks() {
    // No node covers 1..2.
    let mut depot = Depot::new(Addressing::Bins, 4);
    depot.bin(1, 2);
    depot.bin(2, 4);
    depot.bin(1, 2);
    // Node 1 covers 0..1, node 3 all four.
    let mut depot = Depot::new(Addressing::Bins, 4);
    depot.bin(0, 0);
    depot.bin(1, 1);
    depot.bin(0, 1);
    depot.bin(2, 4);
    depot.bin(3, 3);
    for chunk in 0..4 {
        depot.bin(chunk, 3);
    }
}

/// Chunk by chunk: 0..2 is no node's, nodes 7 and 11 reach past seven chunks, and
/// so does 13, whose other leaf is a filler.
#[test]
fn subtrees_of_seven_chunks() {
    for junk in [0, u32::MAX << 7] {
        let mut depot = Depot::new(Addressing::Bins, 7);
        depot.van.map[0] |= junk;
        for (chunk, bin) in [(0, 0), (2, 4), (1, 1), (4, 8), (6, 12), (5, 9), (3, 3)] {
            depot.bin(chunk, bin);
        }
        for (chunk, bin) in (0..).zip([3, 3, 3, 3, 9, 9, 12]) {
            depot.bin(chunk, bin);
        }
        assert_eq!(depot.van.map[0] & !0x7f, junk);
    }
}

/// The ACK for a chunk of a whole pack names the chunk's peak.
#[test]
fn whole_packs_under_bins() {
    let cases: [(u32, &[(u32, u32)]); 9] = [
        (1, &[(0, 0)]),
        (2, &[(0, 1), (1, 1)]),
        (5, &[(0, 3), (3, 3), (4, 8)]),
        (7, &[(0, 3), (3, 3), (4, 9), (5, 9), (6, 12)]),
        (8, &[(0, 7), (4, 7), (7, 7)]),
        (32, &[(0, 31), (31, 31)]),
        // 0..31 is node 31, 32 is leaf 64; 0..63 is node 63, 64 is leaf 128.
        (33, &[(0, 31), (31, 31), (32, 64)]),
        (64, &[(0, 63), (31, 63), (32, 63), (63, 63)]),
        (65, &[(0, 63), (63, 63), (64, 128)]),
    ];
    for (count, acks) in cases {
        let mut depot = Depot::whole(Addressing::Bins, count);
        for &(chunk, bin) in acks {
            depot.bin(chunk, bin);
        }
    }
}

/// 64 chunks without the last one of the first word, which then comes.
#[test]
fn subtrees_of_two_words() {
    let mut depot = Depot::whole(Addressing::Bins, 64);
    depot.van.map[0] &= !(1 << 31);
    // 32..63 is node 95; 30 is leaf 60, 28..29 node 57, 24..27 node 51, 16..23
    // node 39, 0..15 node 15.
    let acks = [
        (32, 95),
        (63, 95),
        (30, 60),
        (28, 57),
        (27, 51),
        (16, 39),
        (0, 15),
    ];
    for (chunk, bin) in acks {
        depot.bin(chunk, bin);
    }
    depot.bin(31, 63);
    depot.bin(30, 63);
}
