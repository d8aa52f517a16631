//! Numbers 8 to 10: chunks of another length, hashes that are missing, and hashes that lead elsewhere.

use crate::support::{refused, run, File, Trace};
use ppspp::{messages, Addressing, Message, Order, Store};
use second::hex;
use second::packets::{data, integrity};

/// A whole store of seven chunks, the last of 1,018 bytes.
struct Pack {
    store: Store,
    /// The INTEGRITY messages that go out with chunk 0, by range.
    hashes: Vec<((u32, u32), Vec<u8>)>,
}

impl Pack {
    fn new() -> Pack {
        let content: Vec<u8> = (0..=250).cycle().take(7_162).collect();
        let store = Store::build(Order::to_build(7_162), &content).expect("a pack's length");
        let mut server = store.clone();
        let calling = server.open(5).expect("a free row").to_vec();
        // A HANDSHAKE to channel 5: what the server sent, with its source as destination.
        let answering = [&calling[5..9], &calling[4..]].concat();
        server.take(0, 0, &answering).expect("it opens");
        let datagram = server.write(5, 0, 0).expect("it is held");
        let found = messages(Addressing::Ranges, datagram).flatten();
        let hashes = found.filter_map(|(_, message)| match message {
            Message::Integrity { first, last, hash } => {
                let hash = hash.try_into().expect("32 bytes");
                Some(((first, last), integrity(first, last, hash)))
            }
            _ => None,
        });
        let hashes = hashes.collect();
        Pack { store, hashes }
    }

    /// A trace under its order, with a channel open.
    fn trace(&self) -> Trace {
        let root = self.store.order().expect("it was built").root;
        Trace::new(&hex::encode(&root), 7_162).opened(17)
    }

    /// DATA of a chunk, right or with a byte changed.
    fn data(&self, chunk: u32, right: bool) -> Vec<u8> {
        let mut bytes = self.store.chunk(chunk).expect("it is whole").to_vec();
        bytes[0] ^= u8::from(!right);
        data(chunk, chunk, 0, &bytes)
    }

    /// The right INTEGRITY messages of ranges that go out with chunk 0.
    fn hashes(&self, ranges: &[(u32, u32)]) -> Vec<u8> {
        let of = |range| self.hashes.iter().find(|(known, _)| *known == range);
        let each = ranges
            .iter()
            .map(|&range| &of(range).expect("it goes out").1[..]);
        each.collect::<Vec<_>>().concat()
    }
}

/// What goes out with chunk 0 of seven, a tried value of 01.
const WITH_CHUNK_0: [(u32, u32); 5] = [(0, 3), (2, 3), (4, 5), (1, 1), (6, 6)];

#[test]
fn chunk_of_another_length() {
    let long = Trace::seven().take(&[&data(6, 6, 0, &[0; 1_024])]);
    let reason = "chunk 6 came with 1,024 bytes, it has 1,018";
    refused(&long, "08", reason);
    let short = Trace::seven().take(&[&data(0, 0, 0, &[0])]);
    refused(&short, "08", "chunk 0 came with 1 byte, it has 1,024");
    let abc = Trace::abc().take(&[&data(0, 0, 0, b"")]);
    refused(&abc, "08", "chunk 0 came with 0 bytes, it has 3");
}

#[test]
fn missing_hashes_are_named_in_sending_order() {
    let pack = Pack::new();
    let words = [
        "chunks 0..3 (node 3)",
        "chunks 2..3 (node 5)",
        "chunks 4..5 (node 9)",
        "chunk 1 (node 2)",
        "chunk 6 (node 12)",
    ];
    let ranges = ["0..3", "2..3", "4..5", "1", "6"];
    for came in 0..5 {
        let hashes = pack.hashes(&WITH_CHUNK_0[..came]);
        let trace = pack.trace().take(&[&hashes, &pack.data(0, true)]);
        let others = ranges[came + 1..].join(", ");
        let besides = if others.is_empty() {
            ""
        } else {
            "; missing besides: "
        };
        let reason = format!(
            "chunk 0 refused: the hash of {} is missing{besides}{others}",
            words[came]
        );
        refused(&trace, "09", &reason);
    }
}

#[test]
fn hashes_that_are_trusted_are_not_missing() {
    // By 01's least hashes: behind chunk 0 chunk 2 needs leaf 6, chunk 3; behind that, 4 needs leaf 10, chunk 5.
    let pack = Pack::new();
    let trace = pack
        .trace()
        .take(&[&pack.hashes(&WITH_CHUNK_0), &pack.data(0, true)]);
    let two = trace.take(&[&pack.data(2, true)]);
    refused(
        &two,
        "09",
        "chunk 2 refused: the hash of chunk 3 (node 6) is missing",
    );
    let four = two.take(&[&pack.data(4, false)]);
    refused(
        &four,
        "09",
        "chunk 4 refused: the hash of chunk 5 (node 10) is missing",
    );
    // Chunk 6 is its own peak: before any chunk it needs the three peaks.
    let six = pack
        .trace()
        .take(&[&pack.hashes(&[(4, 5)]), &pack.data(6, true)]);
    let first = "chunk 6 refused: the hash of chunks 0..3 (node 3) is missing";
    refused(&six, "09", &format!("{first}; missing besides: 6"));
}

#[test]
fn peaks_that_do_not_give_the_root() {
    let pack = Pack::new();
    let wrong = integrity(4, 5, &[9; 32]);
    let others = pack.hashes(&[(0, 3), (2, 3), (1, 1), (6, 6)]);
    for right in [true, false] {
        let trace = pack.trace().take(&[&others, &wrong, &pack.data(0, right)]);
        let reason = "the peaks that came, 0..3, 4..5, 6, do not give the root (node 7)";
        refused(&trace, "0a", reason);
    }
}

#[test]
fn climb_that_misses_a_peak_that_came() {
    let pack = Pack::new();
    let peak = "the hash of the peak over chunks 0..3 (node 3)";
    let peak = format!("{peak}, which came with it and leads to the root");
    let reason = format!("chunk 0 with the hashes of 1, 2..3 does not give {peak}");
    let hashes = pack.hashes(&WITH_CHUNK_0);
    let chunk = pack.trace().take(&[&hashes, &pack.data(0, false)]);
    refused(&chunk, "0a", &reason);
    let wrong = integrity(2, 3, &[9; 32]);
    let others = pack.hashes(&[(0, 3), (4, 5), (1, 1), (6, 6)]);
    let sibling = pack.trace().take(&[&others, &wrong, &pack.data(0, true)]);
    refused(&sibling, "0a", &reason);
}

#[test]
fn climb_that_misses_a_trusted_node() {
    let pack = Pack::new();
    let trace = pack
        .trace()
        .take(&[&pack.hashes(&WITH_CHUNK_0), &pack.data(0, true)]);
    let two = trace.take(&[&integrity(3, 3, &[9; 32]), &pack.data(2, true)]);
    let missed = "does not give the trusted hash of chunks 2..3 (node 5)";
    refused(
        &two,
        "0a",
        &format!("chunk 2 with the hash of chunk 3 {missed}"),
    );
    let one = two.take(&[&pack.data(1, false)]);
    let reason = "chunk 1 does not give the trusted hash of chunk 1 (node 2)";
    refused(&one, "0a", reason);
    let held = one.take(&[&pack.data(0, false)]);
    let reason = "chunk 0 does not give the trusted hash of chunk 0 (node 0)";
    let reason = format!("{reason}; it is held, with other bytes");
    refused(&held, "0a", &reason);
    // A peak that is trusted by now, and was none of what came.
    let six = held.take(&[&pack.data(6, false)]);
    let reason = "chunk 6 does not give the trusted hash of chunk 6 (node 12)";
    refused(&six, "0a", reason);
}

#[test]
fn climb_that_misses_the_root() {
    let abd = Trace::abc().take(&[&data(0, 0, 0, b"abd")]);
    let reason = "chunk 0 does not give the root, over chunk 0 (node 0)";
    refused(&abd, "0a", reason);
    // Two chunks under a root of zeros: a power of two, so the root is trusted and no peak is needed.
    let two = Trace::new(&"00".repeat(32), 2_048).opened(17);
    let two = two.take(&[&integrity(1, 1, &[9; 32]), &data(0, 0, 0, &[7; 1_024])]);
    let root = "the root, over chunks 0..1 (node 1)";
    let reason = format!("chunk 0 with the hash of chunk 1 does not give {root}");
    refused(&two, "0a", &reason);
}

#[test]
fn reasons_that_are_not_so_are_not_told() {
    // The last chunk is right; an output that refuses it gets its number's sentence alone.
    let pack = Pack::new();
    let first = pack
        .trace()
        .take(&[&pack.hashes(&WITH_CHUNK_0), &pack.data(0, true)]);
    let leaf = |chunk: u32| {
        let bytes = pack.store.chunk(chunk).expect("it is whole");
        integrity(chunk, chunk, &second::sha256::sha256(bytes))
    };
    let left = first.clone().take(&[&leaf(5), &pack.data(4, true)]);
    let right = first.clone().take(&[&leaf(2), &pack.data(3, true)]);
    for trace in [first, left, right] {
        let mut output = Vec::new();
        second::replay::replay(&trace.input()[..], &mut output).expect("it writes to memory");
        let output = String::from_utf8(output).expect("digits");
        let mut lines: Vec<&str> = output.lines().collect();
        let place = lines.len() - 2;
        assert!(lines[place].starts_with("00000000110200"), "{output}");
        for number in [
            "01", "02", "03", "04", "05", "06", "07", "08", "09", "0a", "0f",
        ] {
            lines[place] = number;
            let ran = run(&[File::new(trace.input()), File::new(lines.join("\n"))]);
            assert_eq!(ran.status, Some(1));
            assert!(!ran.text.contains("\nreason "), "{}", ran.text);
        }
    }
}
