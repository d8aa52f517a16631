//! Hashes that are not needed, fillers, sides and orders: traps 94, 95 and 101 to
//! 107.

use super::script::*;
use super::Named;
use crate::packets::*;

pub fn traces() -> Vec<Named> {
    vec![
        wrong_peaks(),
        wrong_not_needed(),
        fillers(2_049, &[1, 4], "fillers-n3", "N=3: leaf 6 is a filler"),
        fillers(
            8_193,
            &[7, 16],
            "fillers-n9",
            "N=9: seven fillers, two heights of zeros passed up",
        ),
        fillers(16_385, &[15, 32], "fillers-n17", "N=17: fifteen fillers"),
        fillers(
            6_145,
            &[3, 9, 12],
            "fillers-n7",
            "N=7: one filler beside the last chunk",
        ),
        zero_peak(),
        both_sides(),
        any_order(),
        alone(),
        extra(),
    ]
}

fn wrong_peaks() -> Named {
    let mut script = Script::opened(seven());
    script.stored(0, 0..=0, &[3, 5, 9, 2, 12]);
    let peaks = [wrong(3), wrong(9), wrong(12)].concat();
    script.acknowledged(1, PEER, 1, 0..=1, &[&peaks]);
    let leaf = script.hashes(&[6]);
    script.acknowledged(1, PEER, 2, 0..=2, &[&peaks, &leaf]);
    // They are not kept.
    script.stored(6, 6..=6, &[]);
    script.named(
        "f00004",
        "wrong-peaks-not-needed",
        "wrong peaks once the right ones are trusted (94)",
        "Hashes not needed aren't looked at",
    )
}

fn wrong_not_needed() -> Named {
    let mut script = Script::opened(seven());
    let needed = script.hashes(&[3, 5, 9, 2, 12]);
    // The leaf itself, a climbed node, and nodes elsewhere.
    let others = [wrong(0), wrong(1), wrong(4), wrong(10)].concat();
    script.acknowledged(1, PEER, 0, 0..=0, &[&others, &needed]);
    // Node 5 is trusted: nothing above it, nor the leaf, is looked at.
    let leaf = script.hashes(&[6]);
    script.acknowledged(
        1,
        PEER,
        2,
        2..=2,
        &[&wrong(4), &leaf, &wrong(1), &wrong(3), &wrong(8)],
    );
    script.stored(4, 4..=4, &[10]);
    script.stored(3, 2..=4, &[]);
    script.named(
        "f00004",
        "wrong-hashes-not-needed",
        "wrong hashes of the leaf, of climbed nodes, above the first trusted one, and elsewhere (95)",
        "Hashes not needed aren't looked at",
    )
}

/// The last chunk, of one byte, is a peak: only the peaks are needed.
fn fillers(length: u32, peaks: &[u64], name: &'static str, shows: &'static str) -> Named {
    let mut script = Script::opened(pattern(length));
    let last = (length - 1) / 1024;
    script.refused(9, last, &peaks[1..]);
    script.stored(last, last..=last, peaks);
    script.named(
        "f00001",
        name,
        shows,
        "all must come in the datagram and combine, with fillers, to the root",
    )
}

/// The order's root is over a last peak of 32 zero bytes, which stands beside a
/// filler.
fn zero_peak() -> Named {
    let mut pack = pattern(2_049);
    pack.order_zero_peak();
    let mut script = Script::opened(pack);
    script.refused(10, 2, &[1, 4]);
    script.stored(0, 0..=0, &[1, 4, 2]);
    script.stored(1, 0..=1, &[]);
    script.refused(10, 2, &[]);
    script.named(
        "f00002",
        "zero-peak",
        "N=3: a peak of 32 zero bytes is no filler, its parent is hashed (102)",
        "two empty (all filler) children give an all-zero parent",
    )
}

fn both_sides() -> Named {
    let mut script = Script::opened(pattern(4_096));
    // From the right: both siblings stand left.
    script.stored(3, 3..=3, &[4, 1]);
    script.refused(9, 0, &[]);
    // Node 1 is trusted; its leaves are not.
    script.stored(1, 1..=1, &[0]);
    script.stored(2, 1..=3, &[]);
    script.stored(0, 0..=3, &[]);
    script.named(
        "ff0004",
        "both-sides",
        "N=4 from the right: siblings on the left (103)",
        "A parent holds the hash of left then right",
    )
}

fn any_order() -> Named {
    let mut script = Script::opened(seven());
    let hash = |script: &Script, node| script.hashes(&[node]);
    let [a, b, c, d, e] = [12, 2, 9, 5, 3].map(|node| hash(&script, node));
    let messages: [&[u8]; 9] = [
        &a,
        &CHOKE,
        &b,
        &have(0, 6),
        &c,
        &request(2, 3),
        &d,
        &UNCHOKE,
        &e,
    ];
    script.acknowledged(1, PEER, 0, 0..=0, &messages);
    script.acknowledged(1, PEER, 1, 0..=1, &[&cancel(0, 6), &ack(0, 0, 7)]);
    script.named(
        "f00002",
        "hashes-in-any-order",
        "hashes from low to high, mixed with other messages (104)",
        "The sibling at each step below must come in the datagram",
    )
}

fn alone() -> Named {
    let mut script = Script::opened(seven());
    let all = script.hashes(&[3, 5, 9, 2, 12]);
    script.take(0, 1, &[&all]);
    script.refused(9, 0, &[]);
    script.take(0, 1, &[&wrong(3), &wrong(9), &wrong(12)]);
    script.stored(0, 0..=0, &[3, 5, 9, 2, 12]);
    script.take(0, 1, &[&wrong(2)]);
    script.stored(1, 0..=1, &[]);
    // The leaves of chunks 5 and 4.
    let leaf = script.hashes(&[10]);
    script.take(0, 1, &[&leaf, &wrong(8)]);
    script.refused(9, 5, &[]);
    script.stored(4, 4..=4, &[10]);
    script.named(
        "f00003",
        "hashes-alone",
        "hashes of an earlier datagram are not kept, right or wrong (105)",
        "INTEGRITY without DATA has no effect",
    )
}

fn extra() -> Named {
    let mut script = Script::opened(seven());
    // Leaves 10 and 6 come along, right and wrong, and are not needed.
    let needed = script.hashes(&[3, 5, 9, 2, 12]);
    let leaf = script.hashes(&[10]);
    script.acknowledged(1, PEER, 0, 0..=0, &[&needed, &leaf, &wrong(6)]);
    script.refused(9, 4, &[]);
    script.refused(9, 5, &[]);
    script.stored(2, 2..=2, &[6]);
    script.stored(4, 4..=4, &[10]);
    script.stored(5, 4..=5, &[]);
    script.named(
        "f00004",
        "extra-hashes",
        "hashes that were not needed are not trusted afterwards (107)",
        "the peaks, the leaf, climbed nodes and siblings are written to the hash room and become trusted",
    )
}
