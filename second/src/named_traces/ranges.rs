//! Ranges past the pack: traps 76 to 83.

use super::script::*;
use super::Named;
use crate::packets::*;

pub fn traces() -> Vec<Named> {
    vec![
        last_of_seven(),
        ranges_past(),
        nodes_past(),
        chunk_past(),
        nothing_done(),
    ]
}

/// A HAVE, ACK, REQUEST and CANCEL of a range.
fn each(first: u32, last: u32) -> [Vec<u8>; 4] {
    [
        have(first, last),
        ack(first, last, 0),
        request(first, last),
        cancel(first, last),
    ]
}

fn last_of_seven() -> Named {
    let mut script = Script::opened(seven());
    for message in each(6, 6) {
        script.take(0, 1, &[&message]);
    }
    for message in each(7, 7) {
        script.take(7, 1, &[&message]);
    }
    script.named(
        "f00000",
        "last-of-seven",
        "range 6..6 with N=7 is taken, 7..7 is not",
        "Range 6..6 with N=7 taken, 7..7: 7",
    )
}

fn ranges_past() -> Named {
    let mut script = Script::opened(seven());
    for (first, last) in [
        (0, 7),
        (6, 7),
        (0, u32::MAX),
        (u32::MAX, u32::MAX),
        (0, 0x8000_0000),
    ] {
        for message in each(first, last) {
            script.take(7, 1, &[&message]);
            script.take(7, 1, &[&have(0, 6), &message, &CHOKE]);
        }
    }
    for message in each(0, 6) {
        script.take(0, 1, &[&message]);
    }
    script.named(
        "f00000",
        "ranges-past",
        "ranges that begin inside or not, up to FFFFFFFF (76, 77, 78)",
        "a range past N-1",
    )
}

fn nodes_past() -> Named {
    let mut script = Script::opened(seven());
    let root = script.pack.root;
    let past = [
        (0, 7),
        (4, 7),
        (7, 7),
        (6, 7),
        (8, 8),
        (0, 15),
        (0x8000_0000, 0x8000_0000),
        (0, u32::MAX),
        (u32::MAX, u32::MAX),
    ];
    for (first, last) in past {
        script.take(7, 1, &[&integrity(first, last, &root)]);
    }
    // Not needed, and still past.
    let good = script.hashes(&[3, 9, 12]);
    let chunk = script.data(6);
    script.take(7, 1, &[&good, &integrity(7, 7, &[0; 32]), &chunk]);
    script.stored(6, 6..=6, &[3, 9, 12]);
    script.named(
        "f00001",
        "nodes-past",
        "nodes over chunks past the end, with DATA and without, needed or not (79, 80, 81)",
        "a range past N-1",
    )
}

fn chunk_past() -> Named {
    let mut script = Script::opened(seven());
    for chunk in [7, 8, 512, u32::MAX] {
        script.take(7, 1, &[&data(chunk, chunk, 0, &[])]);
        script.take(7, 1, &[&data(chunk, chunk, 0, &[0; 1024])]);
    }
    script.take(7, 1, &[&have(0, 7), &data(0, 0, 0, &[])]);
    script.named(
        "f00000",
        "chunk-past",
        "DATA past the end, of no byte and of 1,024 (82)",
        "7, then 8",
    )
}

fn nothing_done() -> Named {
    let mut script = Script::opened(seven());
    let all = script.hashes(&[3, 5, 9, 2, 12]);
    let chunk = script.data(0);
    script.take(7, 1, &[&have(0, 6), &have(7, 7), &all, &chunk]);
    // The hashes are needed as before.
    script.refused(9, 0, &[]);
    script.refused(9, 1, &[]);
    script.stored(0, 0..=0, &[3, 5, 9, 2, 12]);
    script.named(
        "f00001",
        "range-refuses-chunk",
        "a range past the end before a good chunk: nothing is taken (83)",
        "A refused call ... alters nothing",
    )
}
