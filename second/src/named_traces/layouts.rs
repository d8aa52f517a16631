//! Layouts: traps 24 to 39.

use super::script::*;
use super::Named;
use crate::packets::*;

pub fn traces() -> Vec<Named> {
    vec![
        keepalives(),
        refused_types(),
        first_above_last(),
        cut_short(),
        data_without_chunk(),
        data_range(),
        integrity_no_node(),
        integrity_twice(),
        layout_before_range(),
        left_to_right(),
        messages_inside_data(),
        layout_before_destination(),
    ]
}

fn keepalives() -> Named {
    let mut script = Script::opened(abc());
    script.take(0, 1, &[]);
    script.take(5, 0, &[]);
    script.take(5, 2, &[]);
    script.take(5, PEER, &[]);
    script.take(5, 0x0100_0000, &[]);
    script.close(1);
    script.take(5, 1, &[]);
    script.named(
        "f00000",
        "keepalives",
        "4 bytes to an open channel, to 0 and to no channel (24)",
        "No message: a keepalive",
    )
}

fn refused_types() -> Named {
    let mut script = Script::opened(abc());
    for kind in (5..=7).chain(12..=255) {
        script.take(2, 1, &[&[kind]]);
    }
    for kind in [5, 7, 12, 255] {
        script.take(2, 1, &[&CHOKE, &[kind], &[0; 40]]);
    }
    script.take(0, 1, &[&CHOKE, &UNCHOKE]);
    script.named(
        "f00000",
        "refused-types",
        "every refused type, alone and among messages (25)",
        "Types 5 to 7, 12 to 254 and 255 are refused",
    )
}

fn first_above_last() -> Named {
    let mut script = Script::opened(seven());
    let root = script.pack.root;
    for (first, last) in [(5, 4), (1, 0), (u32::MAX, 0), (u32::MAX, u32::MAX - 1)] {
        script.take(2, 1, &[&have(first, last)]);
        script.take(2, 1, &[&ack(first, last, 0)]);
        script.take(2, 1, &[&request(first, last)]);
        script.take(2, 1, &[&cancel(first, last)]);
        script.take(2, 1, &[&integrity(first, last, &root)]);
        script.take(2, 1, &[&data(first, last, 0, &[0; 8])]);
        script.take(2, 9, &[&have(first, last)]);
    }
    script.take(0, 1, &[&have(4, 5)]);
    script.named(
        "f00000",
        "first-above-last",
        "in each message with a range, also to no channel (26, 27)",
        "first above last",
    )
}

fn cut_short() -> Named {
    let mut script = Script::opened(seven());
    let root = script.pack.root;
    let whole = [
        handshake(PEER, &[255]),
        data(0, 0, 0, &[]),
        ack(0, 0, 0),
        have(0, 0),
        integrity(0, 0, &root),
        request(0, 0),
        cancel(0, 0),
    ];
    for message in whole {
        let cut = message.len() - 1;
        script.take(2, 1, &[&message[..cut]]);
        script.take(2, 1, &[&message[..1]]);
        script.take(2, 1, &[&UNCHOKE, &message[..cut / 2]]);
    }
    // Whole: options are missing, and the chunk's length is wrong.
    script.take(4, 1, &[&handshake(PEER, &[255])]);
    script.take(8, 1, &[&data(0, 0, 0, &[])]);
    script.take(
        0,
        1,
        &[
            &ack(0, 0, 0),
            &have(0, 0),
            &integrity(0, 0, &root),
            &request(0, 0),
            &cancel(0, 0),
        ],
    );
    script.named(
        "f00000",
        "cut-short",
        "each message one byte short, half, and its type alone; then whole (28)",
        "cut short",
    )
}

fn data_without_chunk() -> Named {
    let mut script = Script::opened(seven());
    let empty = data(0, 0, 0, &[]);
    script.take(8, 1, &[&empty]);
    script.take(2, 1, &[&empty[..16]]);
    script.take(2, 1, &[&empty[..9]]);
    script.named(
        "f00000",
        "data-without-chunk",
        "DATA with no chunk byte is 8, with one byte fewer 2 (29, 30)",
        "chunk to the datagram's end",
    )
}

fn data_range() -> Named {
    let mut script = Script::opened(seven());
    let bytes = script.pack.chunk(0).to_vec();
    for (first, last) in [(0, 1), (0, 6), (6, 7), (0, u32::MAX)] {
        script.take(2, 1, &[&data(first, last, 0, &bytes)]);
    }
    script.take(2, 1, &[&data(0, 1, 0, &[0; 2000])]);
    script.named(
        "f00000",
        "data-range",
        "DATA for two chunks and more (31)",
        "DATA range not one chunk",
    )
}

fn integrity_no_node() -> Named {
    let mut script = Script::opened(seven());
    let root = script.pack.root;
    let no_nodes = [
        (1, 2),
        (0, 2),
        (2, 5),
        (3, 4),
        (0, 4),
        (0, 5),
        (0, 6),
        (1, 4),
        (5, 6),
        (1, u32::MAX),
    ];
    for (first, last) in no_nodes {
        script.take(2, 1, &[&integrity(first, last, &root)]);
    }
    for (first, last) in [(0, 0), (6, 6), (0, 1), (2, 3), (4, 5), (0, 3)] {
        script.take(0, 1, &[&integrity(first, last, &root)]);
    }
    script.named(
        "f00000",
        "integrity-no-node",
        "ranges that are no node's, and nodes (32)",
        "INTEGRITY range no node",
    )
}

fn integrity_twice() -> Named {
    let mut script = Script::opened(seven());
    let hash = |first, last| integrity(first, last, &[9; 32]);
    script.take(2, 1, &[&hash(0, 3), &hash(0, 3)]);
    script.take(
        2,
        1,
        &[&hash(0, 0), &CHOKE, &hash(2, 3), &have(0, 6), &hash(0, 0)],
    );
    script.take(2, 1, &[&hash(0, 0), &integrity(0, 0, &[8; 32])]);
    // One node in two datagrams, and two nodes with one first chunk.
    script.take(0, 1, &[&hash(0, 3)]);
    script.take(0, 1, &[&hash(0, 3), &hash(0, 1), &hash(0, 0)]);
    let more: Vec<u8> = (0..49).flat_map(|chunk| hash(chunk, chunk)).collect();
    script.take(7, 1, &[&more]);
    let mut last_twice = more;
    last_twice.truncate(48 * 41);
    last_twice.extend(hash(47, 47));
    script.take(2, 1, &[&last_twice]);
    script.named(
        "f00000",
        "integrity-twice",
        "one node twice, side by side and far apart; different nodes (33, 34, 35)",
        "twice in the datagram",
    )
}

fn layout_before_range() -> Named {
    let mut script = Script::opened(seven());
    script.take(2, 1, &[&have(0, 7), &CHOKE, &REFUSED]);
    script.take(7, 1, &[&have(0, 7), &CHOKE]);
    script.take(2, 1, &[&data(7, 8, 0, &[])]);
    script.named(
        "f00000",
        "layout-before-range",
        "the whole layout is read before 7 is given (36)",
        "Order: ... layout message by message ..., ranges",
    )
}

fn left_to_right() -> Named {
    let mut script = Script::opened(seven());
    let root = script.pack.root;
    let hash = integrity(0, 0, &[9; 32]);
    let good = handshake(PEER, &fixed(&root));
    script.take(2, 1, &[&hash, &hash, &good]);
    script.take(3, 1, &[&hash, &good, &hash]);
    script.take(2, 1, &[&REFUSED, &good]);
    script.take(3, 1, &[&good, &REFUSED]);
    script.take(2, 1, &[&have(1, 0), &closing()]);
    script.take(3, 1, &[&closing(), &have(1, 0)]);
    script.named(
        "f00000",
        "left-to-right",
        "2 and 3 in one datagram: the one that stands first (37, 43)",
        "layout message by message from left to right (in each 2, then 3)",
    )
}

fn messages_inside_data() -> Named {
    // The chunk reads like refused types and HANDSHAKEs.
    let bytes = [&[7, 255][..], &closing(), &data(0, 0, 0, &[])].concat();
    let mut script = Script::opened(crate::traces::pack::Pack::of(bytes));
    let chunk = script.data(0);
    // A second DATA behind a first is part of its chunk.
    script.take(8, 1, &[&chunk, &chunk]);
    script.take(8, 1, &[&chunk, &CHOKE]);
    script.stored(0, 0..=0, &[]);
    script.named(
        "ff0001",
        "messages-inside-data",
        "what looks like messages in a chunk is its bytes (38)",
        "chunk to the datagram's end",
    )
}

fn layout_before_destination() -> Named {
    let mut script = Script::opened(seven());
    for destination in [0, 2, u32::MAX] {
        script.take(2, destination, &[&REFUSED]);
        script.take(2, destination, &[&have(5, 4)]);
        script.take(3, destination, &[&CHOKE, &closing()]);
        script.take(5, destination, &[&CHOKE]);
    }
    script.named(
        "f00000",
        "layout-before-destination",
        "a layout at fault to no channel (39)",
        "Order: ... layout ..., destination 5",
    )
}
