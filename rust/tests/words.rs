//! Refusals, nodes, bins and messages in words.

use crate::support::{any_order, node, BINS, RANGES, SEVEN};
use ppspp::sys::PPSPP_NO_NODE;
use ppspp::{Bin, EmptyKind, Malformed, Message, Node, Options, Refusal, Refused, Store};

#[test]
fn refusals_have_the_numbers_of_01() {
    let numbers: Vec<u32> = Refusal::ALL
        .iter()
        .map(|refusal| refusal.number())
        .collect();
    assert!(numbers.into_iter().eq(1..=14));
    assert_eq!(Refusal::HashMismatch.number(), 10);
    assert_eq!(Refusal::of(14), Some(Refusal::Id));
    assert_eq!((Refusal::of(0), Refusal::of(15)), (None, None));
}

#[test]
fn number_becomes_a_result() {
    assert_eq!(Refusal::check(0), Ok(()));
    assert_eq!(Refusal::check(5), Err(Refusal::NoChannel));
    assert_eq!(Refusal::check(11), Err(Refusal::Room));
}

#[test]
#[should_panic(expected = "the library answered with 15")]
fn number_of_no_refusal_is_told() {
    let _ = Refusal::check(15);
}

#[test]
fn refusals_are_told_apart_in_words() {
    let words: std::collections::HashSet<String> = Refusal::ALL
        .iter()
        .map(|refusal| refusal.to_string())
        .collect();
    assert_eq!(words.len(), 14);
    assert_eq!(Refusal::Room.to_string(), "a room is too small");
    let error: Box<dyn std::error::Error> = Refusal::Range.into();
    let words = "a range or a chunk's number runs past the last chunk";
    assert_eq!(error.to_string(), words);
    let error: Box<dyn std::error::Error> = Malformed { place: 4 }.into();
    assert_eq!(error.to_string(), "no message can be read at byte 4");
}

#[test]
fn refused_in_words() {
    let tried = [
        (
            Refused::missing(node(9)),
            "hash missing: node 9, chunks 4..5",
        ),
        (Refused::missing(node(2)), "hash missing: node 2, chunk 1"),
        (
            Refused::mismatch(node(3)),
            "hash mismatch: node 3, chunks 0..3",
        ),
    ];
    for (refused, words) in tried {
        let error: Box<dyn std::error::Error> = refused.into();
        assert_eq!(error.to_string(), words);
    }
    for refusal in Refusal::ALL {
        let refused = Refused::from(refusal);
        assert_eq!((refused.refusal(), refused.node()), (refusal, None));
        assert_eq!(refused.to_string(), refusal.to_string());
    }
}

#[test]
fn number_and_node_become_a_result() {
    assert_eq!(Refused::check(0, PPSPP_NO_NODE), Ok(()));
    assert_eq!(Refused::check(9, 5), Err(Refused::missing(node(5))));
    assert_eq!(Refused::check(10, 7), Err(Refused::mismatch(node(7))));
    for refusal in Refusal::ALL {
        let number = refusal.number();
        assert_eq!(Refused::check(number, PPSPP_NO_NODE), Err(refusal.into()));
        let named = [Refusal::HashMissing, Refusal::HashMismatch].contains(&refusal);
        let refused = Refused::check(number, 5).expect_err("a refusal");
        assert_eq!(
            (refused.refusal(), refused.node().is_some()),
            (refusal, named)
        );
    }
}

#[test]
fn messages_of_ranges_in_words() {
    let (first, last) = (0, 6);
    let tried = [
        (Message::Have { first, last }, "HAVE of chunks 0 to 6"),
        (Message::Cancel { first, last }, "CANCEL of chunks 0 to 6"),
        (Message::Request { first: 3, last: 3 }, "REQUEST of chunk 3"),
        (Message::Choke, "CHOKE"),
        (Message::Unchoke, "UNCHOKE"),
    ];
    for (message, words) in tried {
        assert_eq!(message.to_string(), words);
    }
    let (first, last, delay) = (3, 3, 250);
    let ack = Message::Ack { first, last, delay };
    assert_eq!(ack.to_string(), "ACK of chunk 3, delay 250");
}

#[test]
fn messages_with_bytes_in_words() {
    let (first, last, hash) = (0, 3, &[0xab; 32][..]);
    let integrity = Message::Integrity { first, last, hash };
    let words = format!("INTEGRITY of chunks 0 to 3, hash {}", "ab".repeat(32));
    assert_eq!(integrity.to_string(), words);
    let data = |first, last| Message::Data {
        first,
        last,
        timestamp: 9,
        bytes: b"abc",
    };
    let words = "DATA of chunk 2, 3 bytes, sent at 9";
    assert_eq!(data(2, 2).to_string(), words);
    let words = "DATA of chunks 2 to 3, 3 bytes, sent at 9";
    assert_eq!(data(2, 3).to_string(), words);
}

#[test]
fn handshakes_in_words() {
    let root = &[0xab; 32];
    let fixed = format!("the profile's options, root {}", "ab".repeat(32));
    let tried = [
        (Options::Fixed { root }, &fixed[..]),
        (Options::Other, "other options"),
        (Options::End, "no options"),
    ];
    for (options, words) in tried {
        let wanted = format!("HANDSHAKE from channel 8 with {words}");
        let source = 8;
        let message = Message::Handshake { source, options };
        assert_eq!(message.to_string(), wanted);
    }
    let closing = Message::CLOSING.to_string();
    assert_eq!(closing, "HANDSHAKE that closes the channel");
}

#[test]
fn nodes_are_over_chunks() {
    // 01's tried values, and the ends of what 32 bits name.
    let max = u32::MAX;
    let tried = [
        (3, (0, 3), 2, "node 3, chunks 0..3"),
        (9, (4, 5), 1, "node 9, chunks 4..5"),
        (12, (6, 6), 0, "node 12, chunk 6"),
        (11, (4, 7), 2, "node 11, chunks 4..7"),
        (0, (0, 0), 0, "node 0, chunk 0"),
        (511, (0, 511), 9, "node 511, chunks 0..511"),
        (
            0xffff_ffff,
            (0, max),
            32,
            "node 4294967295, chunks 0..4294967295",
        ),
        (
            0x1_ffff_fffe,
            (max, max),
            0,
            "node 8589934590, chunk 4294967295",
        ),
    ];
    for (number, (first, last), height, words) in tried {
        let node = node(number);
        assert_eq!((node.number(), node.height()), (number, height));
        assert_eq!((node.first(), node.last()), (first, last));
        assert_eq!(Node::over(first, last), Some(node));
        assert_eq!(node.to_string(), words);
    }
    for number in [0x1_ffff_ffff, 0x2_0000_0000, u64::MAX - 1, PPSPP_NO_NODE] {
        assert_eq!(Node::of(number), None, "{number}");
    }
    for (first, last) in [(0, 2), (1, 2), (5, 3), (2, 5), (1, max), (max, 0)] {
        assert_eq!(Node::over(first, last), None, "{first}..{last}");
    }
}

#[test]
fn bins_are_over_chunks() {
    let tried = [
        (0, (0, 0), "chunk 0 (bin 0)"),
        (12, (6, 6), "chunk 6 (bin 12)"),
        (11, (4, 7), "chunks 4..7 (bin 11)"),
        (7, (0, 7), "chunks 0..7 (bin 7)"),
        (23, (8, 15), "chunks 8..15 (bin 23)"),
        (
            0x3fff_ffff,
            (0, 0x3fff_ffff),
            "chunks 0..1073741823 (bin 1073741823)",
        ),
        (0x7fff_ffff, (0, 0x7fff_ffff), "all chunks (bin 7FFFFFFF)"),
        (
            0xffff_fffe,
            (0x7fff_ffff, 0x7fff_ffff),
            "chunk 2147483647 (bin 4294967294)",
        ),
    ];
    for (number, (first, last), words) in tried {
        assert_eq!(Bin::over(first, last), Some(Bin(number)));
        assert_eq!(Bin(number).chunks(), Some((first, last)));
        assert_eq!(Bin(number).to_string(), words);
    }
    assert_eq!(Bin::EMPTY.chunks(), None);
    assert_eq!(Bin::EMPTY.to_string(), "no chunk (bin FFFFFFFF)");
    for (first, last) in [
        (0, 2),
        (1, 2),
        (5, 3),
        (2, 5),
        (0, u32::MAX),
        (1 << 31, 1 << 31),
    ] {
        assert_eq!(Bin::over(first, last), None, "{first}..{last}");
    }
}

#[test]
fn bins_in_a_pack() {
    let tried = [
        (11, "chunks 4..6 (bin 11)"),
        (13, "chunk 6 (bin 13)"),
        (7, "chunks 0..6 (bin 7)"),
        (3, "chunks 0..3 (bin 3)"),
        (14, "chunk 7 (bin 14)"),
        (23, "chunks 8..15 (bin 23)"),
        (0x7fff_ffff, "all chunks (bin 7FFFFFFF)"),
        (0xffff_ffff, "no chunk (bin FFFFFFFF)"),
    ];
    for (number, words) in tried {
        assert_eq!(Bin(number).in_pack(7).to_string(), words);
    }
}

#[test]
fn messages_of_bins_in_words() {
    let (first, last, delay) = (4, 7, 250);
    let have = Message::Have { first, last };
    let ack = Message::Ack { first, last, delay };
    let kind = EmptyKind::Request;
    let empty = Message::Empty { kind };
    let tried = [
        (have, "HAVE of chunks 4..7 (bin 11)"),
        (ack, "ACK of chunks 4..7 (bin 11), delay 250"),
        (empty, "REQUEST of no chunk (bin FFFFFFFF)"),
        (Message::Choke, "CHOKE"),
    ];
    for (message, words) in tried {
        assert_eq!(message.in_words(BINS).to_string(), words);
        assert_eq!(message.in_words(RANGES).to_string(), message.to_string());
    }
    assert_eq!(have.to_string(), "HAVE of chunks 4 to 7");
    assert_eq!(empty.to_string(), "REQUEST of no chunk (bin FFFFFFFF)");
    // A message to be added over chunks that no bin names.
    let nameless = Message::Cancel { first: 0, last: 2 };
    let words = nameless.in_words(BINS).to_string();
    assert_eq!(words, "CANCEL of chunks 0 to 2");
}

#[test]
fn messages_of_bins_in_a_store() {
    let (first, last, delay, hash) = (4, 7, 250, &[0xab; 32]);
    let hash_words = format!(
        "INTEGRITY of chunks 4..7 (bin 11), hash {}",
        "ab".repeat(32)
    );
    let tried = [
        (
            Message::Have { first, last },
            "HAVE of chunks 4..6 (bin 11)",
        ),
        (
            Message::Request { first, last },
            "REQUEST of chunks 4..6 (bin 11)",
        ),
        (
            Message::Cancel { first, last },
            "CANCEL of chunks 4..6 (bin 11)",
        ),
        (
            Message::Ack { first, last, delay },
            "ACK of chunks 4..6 (bin 11), delay 250",
        ),
        // It is refused with 7, and means no part of what it names.
        (Message::Integrity { first, last, hash }, &hash_words),
    ];
    let order = any_order(SEVEN).addressing(BINS);
    let store = Store::start(order).expect("a pack's length");
    for (message, words) in tried {
        assert_eq!(message.in_words(BINS).in_pack(7).to_string(), words);
        assert_eq!(store.in_words(message).to_string(), words);
    }
    // Under ranges nothing is cut.
    let store = Store::start(any_order(SEVEN)).expect("a pack's length");
    let have = Message::Have { first, last };
    assert_eq!(store.in_words(have).to_string(), "HAVE of chunks 4 to 7");
}
