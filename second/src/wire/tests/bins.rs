//! Reading under bins, against 02's No. 1 and RFC 7574, 4.2.

use super::*;

const BINS: Addressing = Addressing::Bins;

/// The bin that is empty, and the one that is everything.
const EMPTY: u32 = 0xffff_ffff;
const EVERYTHING: u32 = 0x7fff_ffff;

/// What stands behind the destination of a datagram with this message alone.
fn alone(message: &[u8]) -> Step {
    step(BINS, &to(5, &[message]), 4)
}

/// A type byte, a bin and what follows.
fn with_bin(kind: u8, bin: u32, behind: &[u8]) -> Vec<u8> {
    [&[kind], &bin.to_be_bytes()[..], behind].concat()
}

/// The message alone, if it is read to its end.
fn read(message: &[u8]) -> Option<Message> {
    match alone(message) {
        Step::Read {
            message: read,
            next,
        } => {
            assert_eq!(next, 4 + message.len());
            Some(read)
        }
        Step::Refused => None,
        Step::End => panic!("{message:?}"),
    }
}

#[test]
fn methods_have_numbers() {
    assert_eq!(Addressing::Bins.number(), 0);
    assert_eq!(Addressing::Ranges.number(), 2);
    assert_eq!(Addressing::of(0), Some(Addressing::Bins));
    assert_eq!(Addressing::of(2), Some(Addressing::Ranges));
    for number in [1, 3, 4, 255, 256, 258, 1 << 16, 1 << 31, u32::MAX] {
        assert_eq!(Addressing::of(number), None);
    }
    assert_eq!(Addressing::default(), Addressing::Ranges);
}

#[test]
fn each_message_of_the_table() {
    let (first, last) = (4, 5);
    let delay = 258;
    let late = [0, 0, 0, 0, 0, 0, 1, 2];
    for (bytes, size, expected) in [
        (with_bin(3, 9, &[]), 5, Message::Have { first, last }),
        (with_bin(8, 9, &[]), 5, Message::Request { first, last }),
        (with_bin(9, 9, &[]), 5, Message::Cancel { first, last }),
        (
            with_bin(2, 9, &late),
            13,
            Message::Ack { first, last, delay },
        ),
        (
            with_bin(4, 9, &[9; 32]),
            37,
            Message::Integrity {
                first,
                last,
                hash: 9,
            },
        ),
        (
            with_bin(1, 10, &[&late[..], b"chunk!"].concat()),
            19,
            Message::Data {
                first: 5,
                last: 5,
                time: 258,
                start: 17,
                len: 6,
            },
        ),
        (vec![10], 1, Message::Choke),
        (vec![11], 1, Message::Unchoke),
    ] {
        assert_eq!(bytes.len(), size);
        assert_eq!(read(&bytes), Some(expected));
        // One byte short, or more; DATA may have fewer bytes of chunk.
        let least = if bytes[0] == 1 { 13 } else { size };
        for cut in 1..least {
            assert_eq!(alone(&bytes[..cut]), Step::Refused);
        }
    }
}

/// "`FFFFFFFF` is empty and does nothing in HAVE, REQUEST and CANCEL; `7FFFFFFF`
/// is everything. Either in DATA, ACK or INTEGRITY is 2."
#[test]
fn the_twelve_special_pairs() {
    let (first, last) = (0, 0x7fff_ffff);
    for (kind, everything) in [
        (3, Message::Have { first, last }),
        (8, Message::Request { first, last }),
        (9, Message::Cancel { first, last }),
    ] {
        let empty = Message::Empty { kind };
        assert_eq!(read(&with_bin(kind, EMPTY, &[])), Some(empty));
        assert_eq!(read(&with_bin(kind, EVERYTHING, &[])), Some(everything));
    }
    for bin in [EMPTY, EVERYTHING] {
        assert_eq!(read(&with_bin(1, bin, &[0; 9])), None);
        assert_eq!(read(&with_bin(2, bin, &[0; 8])), None);
        assert_eq!(read(&with_bin(4, bin, &[0; 32])), None);
    }
}

/// Bins of every height at both ends, against the definition: "Node b of height h
/// covers 2^h chunks from (b - 2^h + 1) / 2."
#[test]
fn chunks_of_bins() {
    let mut bins: Vec<u32> = (0..5000).collect();
    bins.extend((0..5000).map(|i| 0xffff_fffe - i));
    bins.extend((0..5000).map(|i| 0x7fff_d000 + 3 * i));
    for height in 0..31 {
        let low = (1u32 << height) - 1;
        bins.extend([low, low | 2 << height, (!0 << (height + 1)) | low]);
    }
    for bin in bins {
        let height = (0..).find(|i| bin >> i & 1 == 0).unwrap();
        let width = 1u64 << height;
        let first = (u64::from(bin) + 1 - width) / 2;
        let (first, last) = (first as u32, (first + width - 1) as u32);
        let have = Message::Have { first, last };
        assert_eq!(read(&with_bin(3, bin, &[])), Some(have), "{bin:x}");
        let delay = 0;
        let ack = Message::Ack { first, last, delay };
        let special = bin == EVERYTHING;
        let expected = (!special).then_some(ack);
        assert_eq!(read(&with_bin(2, bin, &[0; 8])), expected, "{bin:x}");
        let hash = 9;
        let node = Message::Integrity { first, last, hash };
        let expected = (!special).then_some(node);
        assert_eq!(read(&with_bin(4, bin, &[1; 32])), expected, "{bin:x}");
        let (time, start, len) = (0, 17, 0);
        let data = Message::Data {
            first,
            last,
            time,
            start,
            len,
        };
        let expected = (height == 0).then_some(data);
        assert_eq!(read(&with_bin(1, bin, &[0; 8])), expected, "{bin:x}");
    }
}

/// Option 6 of the other method makes the options others.
#[test]
fn options_of_both_methods() {
    let ranges = fixed();
    let mut bins = fixed();
    bins[44] = 0;
    for (addressing, own, other) in [
        (Addressing::Bins, &bins, &ranges),
        (Addressing::Ranges, &ranges, &bins),
    ] {
        for (bytes, options) in [(own, Options::Fixed { root: 16 }), (other, Options::Other)] {
            let datagram = to(0, &[&handshake(17, bytes)]);
            let (source, mut nodes) = (17, vec![]);
            let expected = Layout::HandshakeAlone { source, options };
            assert_eq!(datagram.len(), 60);
            assert_eq!(layout(addressing, &datagram, &mut nodes), Ok(expected));
        }
        for method in [1, 3, 4, 255] {
            let mut others = fixed();
            others[44] = method;
            let datagram = to(0, &[&handshake(17, &others)]);
            let (source, options) = (17, Options::Other);
            let expected = Layout::HandshakeAlone { source, options };
            assert_eq!(layout(addressing, &datagram, &mut vec![]), Ok(expected));
        }
        // A closing one has End alone, under either method.
        let closing = to(5, &[&handshake(0, own)]);
        assert_eq!(number_under(addressing, &closing), 3);
    }
}

/// The node and the place of its hash; DATA to the end.
#[test]
fn layouts() {
    let inside = [&with_bin(4, 3, &[9; 32])[..], &[7]].concat();
    let datagram = to(
        5,
        &[
            &with_bin(4, 3, &[9; 32]),
            &with_bin(3, EMPTY, &[]),
            &with_bin(4, 0xffff_fffe, &[8; 32]),
            &with_bin(1, 2, &[&[0; 8], &inside[..]].concat()),
        ],
    );
    let mut nodes = vec![(77, 77)];
    let expected = Layout::MessagesAndData {
        chunk: 1,
        time: 0,
        start: 96,
        len: 38,
    };
    assert_eq!(layout(BINS, &datagram, &mut nodes), Ok(expected));
    assert_eq!(nodes, [(3, 9), (0xffff_fffe, 51)]);
}

/// A node twice, also where all bits of the list of seen ones are the same.
#[test]
fn a_node_twice() {
    let bins = [
        0,
        1,
        3,
        7,
        12,
        1023,
        1024,
        1 << 31,
        0xffff_fffe,
        0xbfff_ffff,
    ];
    let node = |bin| with_bin(4, bin, &[9; 32]);
    let all: Vec<u8> = bins.iter().flat_map(|&bin| node(bin)).collect();
    assert_eq!(number_under(BINS, &to(5, &[&all])), 0);
    for bin in bins {
        let mut again = node(bin);
        again[36] ^= 1;
        assert_eq!(number_under(BINS, &to(5, &[&all, &[10], &again])), 2);
        let data = with_bin(1, 0, &[0; 8]);
        assert_eq!(number_under(BINS, &to(5, &[&all, &data, &again])), 0);
    }
}

/// 55 nodes fill 2,039 bytes.
#[test]
fn as_many_nodes_as_fit() {
    let all: Vec<u8> = (0..55).flat_map(|i| with_bin(4, 2 * i, &[9; 32])).collect();
    let datagram = to(5, &[&all]);
    assert_eq!(datagram.len(), 2_039);
    let mut nodes = Vec::new();
    assert_eq!(layout(BINS, &datagram, &mut nodes), Ok(Layout::Messages));
    assert!(nodes
        .into_iter()
        .eq((0..55).map(|i| (2 * i, 9 + 37 * i as usize))));
    let again = with_bin(4, 0, &[9; 32]);
    assert_eq!(number_under(BINS, &to(5, &[&all[37..], &again])), 0);
    assert_eq!(number_under(BINS, &to(5, &[&all[..54 * 37], &again])), 2);
    assert_eq!(number_under(BINS, &to(5, &[&all, &again])), 1);
    assert_eq!(number_under(BINS, &to(5, &[&all, &[10; 9]])), 0);
    assert_eq!(number_under(BINS, &to(5, &[&all, &[10; 10]])), 1);
}

/// The same bytes under both methods: eight bytes are two bins, or one range.
#[test]
fn the_method_tells_what_is_read() {
    let haves = to(5, &[&ranged(3, 0x0000_0900, 0x0300_0000)]);
    assert_eq!(number(&haves), 0);
    assert_eq!(number_under(BINS, &haves), 2);
    let two = to(5, &[&with_bin(3, 0, &[]), &with_bin(3, 2, &[])]);
    assert_eq!(number_under(BINS, &two), 0);
    assert_eq!(number(&two), 2);
}
