//! The worked values of 01 for a pack of seven chunks.

use crate::support::{content, Pair, RANGES, SEVEN, VAN};
use ppspp::{messages, Composer, Message, Node, Refusal, Refused, Store};
use second::sha256::{node, sha256};

/// A node's range and hash.
type Hashed = ((u32, u32), [u8; 32]);

/// The hashes of a chunk's datagram.
fn hashes(datagram: &[u8]) -> Vec<Hashed> {
    let sound = messages(RANGES, datagram).map(|found| found.expect("sound").1);
    sound
        .filter_map(|message| match message {
            Message::Integrity { first, last, hash } => {
                Some(((first, last), hash.try_into().expect("32 bytes")))
            }
            _ => None,
        })
        .collect()
}

/// That the hash of a range's node is missing.
fn missing((first, last): (u32, u32)) -> Refused {
    Refused::missing(Node::over(first, last).expect("a node's range"))
}

/// The van takes a chunk with these hashes.
fn take_with(van: &mut Store, chunk: u32, nodes: &[Hashed]) -> Result<(), Refused> {
    let mut room = [0; 2_048];
    let mut composer = Composer::begin(&mut room, RANGES, VAN)?;
    for ((first, last), hash) in nodes {
        let (first, last) = (*first, *last);
        composer.add(Message::Integrity { first, last, hash })?;
    }
    let content = content(SEVEN);
    let bytes = content.chunks(1_024).nth(chunk as usize).expect("a chunk");
    let datagram = composer.data(chunk, 0, bytes)?.finish();
    van.take(0, 0, datagram).map(|_| ())
}

#[test]
fn chunk_0_goes_out_with_five_hashes_in_1250_bytes() {
    let datagram = Pair::new(SEVEN).written(0, 0);
    assert_eq!(datagram.len(), 1_250);
    let ranges: Vec<_> = hashes(&datagram)
        .into_iter()
        .map(|(range, _)| range)
        .collect();
    assert_eq!(ranges, [(0, 3), (2, 3), (4, 5), (1, 1), (6, 6)]);
    let last = messages(RANGES, &datagram)
        .last()
        .expect("DATA")
        .expect("sound");
    let content = content(SEVEN);
    let data = Message::Data {
        first: 0,
        last: 0,
        timestamp: 0,
        bytes: &content[..1_024],
    };
    // Behind the destination and five INTEGRITY messages of 41 bytes.
    assert_eq!(last, (4 + 5 * 41, data));
}

#[test]
fn hashes_of_chunk_0_are_those_of_the_tree() {
    let content = content(SEVEN);
    let leaf: Vec<_> = content.chunks(1_024).map(sha256).collect();
    let (left, right) = (node(&leaf[0], &leaf[1]), node(&leaf[2], &leaf[3]));
    let third = node(&leaf[4], &leaf[5]);
    let wanted = [node(&left, &right), right, third, leaf[1], leaf[6]];
    let mut pair = Pair::new(SEVEN);
    let written = hashes(&pair.written(0, 0))
        .into_iter()
        .map(|(_, hash)| hash);
    assert!(written.eq(wanted));
    // Chunk 7 is a filler: 32 zero bytes.
    let fourth = node(&leaf[6], &[0; 32]);
    assert_eq!(pair.order.root, node(&wanted[0], &node(&third, &fourth)));
}

#[test]
fn least_hashes_of_chunks_in_order() {
    let needed: [&[(u32, u32)]; 7] = [
        &[(0, 3), (2, 3), (4, 5), (1, 1), (6, 6)],
        &[],
        &[(3, 3)],
        &[],
        &[(5, 5)],
        &[],
        &[],
    ];
    let mut pair = Pair::new(SEVEN);
    for (chunk, needed) in (0..).zip(needed) {
        let mut nodes = hashes(&pair.written(chunk, 0));
        nodes.retain(|(range, _)| needed.contains(range));
        assert_eq!(nodes.len(), needed.len());
        for left_out in 0..nodes.len() {
            let mut fewer = nodes.clone();
            let (range, _) = fewer.remove(left_out);
            let taken = take_with(&mut pair.van, chunk, &fewer);
            assert_eq!(taken, Err(missing(range)), "chunk {chunk}");
        }
        assert_eq!(
            take_with(&mut pair.van, chunk, &nodes),
            Ok(()),
            "chunk {chunk}"
        );
    }
    assert!(pair.van.ask().expect("an order").whole);
}

#[test]
fn lone_peak_equal_to_the_root_proves_no_eighth_chunk() {
    let mut pair = Pair::new(SEVEN);
    let root = ((0, 7), pair.order.root);
    let taken = take_with(&mut pair.van, 0, &[root]);
    assert_eq!(taken, Err(Refusal::Range.into()));
    assert_eq!(pair.van.ask().map(|held| held.count), Ok(0));
}

#[test]
fn peaks_of_a_refused_chunk_are_not_kept() {
    let mut pair = Pair::new(SEVEN);
    let mut garbled = pair.written(0, 0);
    let nodes = hashes(&garbled);
    *garbled.last_mut().expect("a chunk") ^= 1;
    let refused = pair.van.take(0, 0, &garbled).map_err(Refused::refusal);
    assert_eq!(refused, Err(Refusal::HashMismatch));
    // Without the peaks 0..3, 4..5 and 6..6, which came with the refused chunk.
    let siblings = [nodes[1], nodes[3]];
    let taken = take_with(&mut pair.van, 0, &siblings);
    assert_eq!(taken, Err(missing((0, 3))));
}

#[test]
fn sixteen_channels_and_one_closed() {
    let mut van = Pair::new(SEVEN).van;
    for id in 1..=15 {
        van.open(id).expect("a free row");
    }
    assert_eq!(van.open(16), Err(Refusal::ChannelsFull));
    let closing = crate::support::bytes("00000011 00 00000000 ff");
    van.take(0, 0, &closing).expect("a closing HANDSHAKE");
    assert!(van.open(16).is_ok());
    assert_eq!(van.channel(16).map(|channel| channel.row), Some(0));
}
