//! Taking chunks, their lengths, and what is missing or wrong: traps 84 to 93
//! and 96 to 100.

use super::script::*;
use super::Named;
use crate::packets::*;
use crate::sha256::sha256;

/// The nodes that go out with chunk 0 of seven.
const WITH_0: [u64; 5] = [3, 5, 9, 2, 12];

pub fn traces() -> Vec<Named> {
    vec![
        wrong_length(),
        missing_before_wrong(),
        each_needed_hash(),
        power_of_two(),
        one_chunk(),
        chunk_that_is_a_peak(),
        damaged_hash(),
        trusted_leaf(),
        held_chunk(),
        delays(),
        two_channels(),
    ]
}

fn wrong_length() -> Named {
    let mut script = Script::opened(seven());
    let all = script.hashes(&WITH_0);
    let last = script.hashes(&[3, 9, 12]);
    for length in [0, 1, 1018, 1023, 1025] {
        let chunk = data(0, 0, 0, &vec![1; length]);
        script.take(8, 1, &[&chunk]);
        script.take(8, 1, &[&all, &chunk]);
    }
    for length in [0, 1017, 1019, 1024] {
        script.take(8, 1, &[&last, &data(6, 6, 0, &vec![1; length])]);
    }
    script.stored(6, 6..=6, &[3, 9, 12]);
    script.named(
        "f00001",
        "wrong-length",
        "other lengths than 1,024 and the last chunk's 1,018, with hashes missing and bytes wrong besides (84, 85)",
        "chunk length not the one its number has; 8, 9, 10",
    )
}

fn missing_before_wrong() -> Named {
    let mut script = Script::opened(seven());
    let chunk = script.data(0);
    let damaged = script.damaged(0);
    let rest = script.hashes(&[9, 12]);
    // A sibling is missing, and the peaks do not give the root.
    script.take(9, 1, &[&wrong(3), &rest, &chunk]);
    // A peak is missing, and the chunk is wrong.
    let without_peak = script.hashes(&[3, 5, 2, 12]);
    script.take(9, 1, &[&without_peak, &damaged]);
    // All is there, and wrong.
    let below = script.hashes(&[5, 2]);
    script.take(10, 1, &[&wrong(3), &below, &rest, &chunk]);
    script.named(
        "f00000",
        "missing-before-wrong",
        "a hash is missing and another or the chunk is wrong (86, 87)",
        "8, 9, 10",
    )
}

fn each_needed_hash() -> Named {
    let mut script = Script::opened(seven());
    for dropped in WITH_0 {
        let nodes: Vec<u64> = WITH_0.into_iter().filter(|&node| node != dropped).collect();
        script.refused(9, 0, &nodes);
    }
    // Peaks alone, siblings alone.
    script.refused(9, 0, &[3, 9, 12]);
    script.refused(9, 0, &[5, 2]);
    // Node 7 is trusted, but above the peaks; 1 and 11 are no siblings.
    script.refused(9, 0, &[1, 2, 5]);
    script.stored(0, 0..=0, &WITH_0);
    script.named(
        "f00001",
        "each-needed-hash",
        "each of the five hashes of chunk 0 missing in turn, also the far peak (88)",
        "all must come in the datagram; The sibling at each step below must come",
    )
}

fn power_of_two() -> Named {
    let mut script = Script::opened(pattern(4_096));
    let needed = script.hashes(&[5, 2]);
    let chunk = script.data(0);
    script.refused(9, 0, &[2]);
    script.refused(9, 0, &[3, 5]);
    // Node 3 is the root: a wrong hash for it is not looked at.
    script.acknowledged(1, PEER, 0, 0..=0, &[&needed, &wrong(3)]);
    script.take(10, 1, &[&needed, &data(1, 1, 0, &chunk[17..])]);
    script.stored(1, 0..=1, &[]);
    script.stored(3, 3..=3, &[4]);
    script.stored(2, 0..=3, &[]);
    script.named(
        "ff0004",
        "power-of-two",
        "N=4: the root is the one peak and trusted at the start (89)",
        "where N is a power of two it is the one peak",
    )
}

fn one_chunk() -> Named {
    let mut script = Script::opened(abc());
    script.take(10, 1, &[&data(0, 0, 0, b"abd")]);
    script.take(8, 1, &[&data(0, 0, 0, b"abcd")]);
    // The hash of the leaf, which is the root, is not looked at.
    let root = script.pack.root;
    script.take(10, 1, &[&integrity(0, 0, &root), &data(0, 0, 0, b"abd")]);
    script.acknowledged(1, PEER, 0, 0..=0, &[&wrong(0)]);
    script.named(
        "ff0001",
        "one-chunk",
        "N=1: DATA alone is enough (90)",
        "N = 1: the root is the hash of the only chunk",
    )
}

fn chunk_that_is_a_peak() -> Named {
    let mut script = Script::opened(seven());
    script.refused(9, 6, &[3, 9]);
    script.refused(9, 6, &[9, 12]);
    let peaks = script.hashes(&[3, 9, 12]);
    let damaged = script.damaged(6);
    script.take(10, 1, &[&peaks, &damaged]);
    script.stored(6, 6..=6, &[3, 9, 12]);
    // The peaks are trusted now.
    script.refused(9, 4, &[]);
    script.stored(4, 4..=4, &[10]);
    script.stored(5, 4..=6, &[]);
    script.named(
        "f00003",
        "chunk-that-is-a-peak",
        "chunk 6 of N=7 needs the peaks and no sibling (91)",
        "climb from the chunk's leaf to the first trusted node at or above it",
    )
}

fn damaged_hash() -> Named {
    let mut script = Script::opened(seven());
    let chunk = script.data(0);
    for damaged in WITH_0 {
        let others: Vec<u64> = WITH_0.into_iter().filter(|&node| node != damaged).collect();
        let good = script.hashes(&others);
        script.take(10, 1, &[&good, &wrong(damaged), &chunk]);
        // None of the good ones is kept.
        script.take(9, 1, &[&chunk]);
    }
    // A filler's zeros for a peak.
    let others = script.hashes(&[3, 5, 9, 2]);
    script.take(10, 1, &[&others, &node_hash(12, &[0; 32]), &chunk]);
    script.stored(0, 0..=0, &WITH_0);
    script.named(
        "f00001",
        "damaged-hash",
        "each needed hash wrong in turn; the good ones are not kept (93)",
        "peaks don't give the root, or the climb misses the trusted node",
    )
}

fn trusted_leaf() -> Named {
    let mut script = Script::opened(seven());
    script.stored(0, 0..=0, &WITH_0);
    let mut forged = script.pack.chunk(1).to_vec();
    forged[500] ^= 1;
    let leaf = node_hash(2, &sha256(&forged));
    let forged = data(1, 1, 0, &forged);
    let all = script.hashes(&[3, 5, 9, 0, 12]);
    script.take(10, 1, &[&forged]);
    script.take(10, 1, &[&leaf, &forged]);
    script.take(10, 1, &[&all, &leaf, &forged]);
    script.stored(1, 0..=1, &[]);
    script.named(
        "f00002",
        "trusted-leaf",
        "a leaf trusted as a sibling decides, not the one that comes with the chunk (96, 97)",
        "climb from the chunk's leaf to the first trusted node at or above it",
    )
}

fn held_chunk() -> Named {
    let mut script = Script::opened(seven());
    script.stored(0, 0..=0, &WITH_0);
    script.stored(0, 0..=0, &[]);
    script.stored(0, 0..=0, &WITH_0);
    // Wrong hashes for all other nodes.
    let wrong: Vec<u8> = [1, 2, 3, 4, 5, 6, 8, 9, 10, 12]
        .into_iter()
        .flat_map(wrong)
        .collect();
    script.acknowledged(1, PEER, 0, 0..=0, &[&wrong]);
    let damaged = script.damaged(0);
    script.take(10, 1, &[&damaged]);
    script.take(8, 1, &[&data(0, 0, 0, &[1; 1018])]);
    // Nothing of the wrong ones is kept.
    script.stored(2, 2..=2, &[6]);
    script.named(
        "f00002",
        "held-chunk",
        "a held chunk again: without hashes, with all, with wrong ones, and damaged (98, 99, 100)",
        "DATA for a chunk already held is checked again and acknowledged, and changes nothing in the store",
    )
}

fn delays() -> Named {
    let mut script = Script::opened(abc());
    for (clock, time, delay) in [
        (0, 0, 0),
        (5, 3, 2),
        (0, 1, u64::MAX),
        (0, u64::MAX, 1),
        (u64::MAX, 0, u64::MAX),
        (u64::MAX, u64::MAX, 0),
        (
            0x0123_4567_89ab_cdef,
            0xfedc_ba98_7654_3210,
            0x0246_8acf_1357_9bdf,
        ),
    ] {
        let datagram = to(1, &[&data(0, 0, time, b"abc")]);
        script.line(frame(clock, &datagram), &ack_line(PEER, 0..=0, delay));
    }
    script.named(
        "ff0001",
        "delays",
        "the clock minus the timestamp, also below zero (109)",
        "its delay the clock minus the timestamp modulo 2^64",
    )
}

fn two_channels() -> Named {
    let mut script = Script::opened(seven());
    script.open(0x22);
    script.stored(0, 0..=0, &WITH_0);
    // What came on one channel serves the other, and counts in its ACKs.
    script.acknowledged(2, 0x22, 1, 0..=1, &[]);
    script.acknowledged(2, 0x22, 0, 0..=1, &[]);
    script.close(1);
    script.acknowledged(2, 0x22, 6, 6..=6, &[]);
    script.open(0x33);
    script.acknowledged(3, 0x33, 1, 0..=1, &[]);
    script.named(
        "f00003",
        "two-channels",
        "hashes of one channel serve all; the ACK goes to where the DATA came from (106, 110)",
        "Replies go to the peer's source channel",
    )
}
