//! What an ACK names: traps 141 to 144.

use super::script::*;
use super::Named;
use crate::packets::*;

/// The words about any chunk.
const RUN: &str = "02, No. 2: With ranges that is the longest run of held chunks around it";

pub fn traces() -> Vec<Named> {
    vec![
        joined(),
        repeat(),
        gap(),
        last_missing(),
        last_chunk(),
        whole_32(),
    ]
}

fn joined() -> Named {
    let mut script = Script::opened(seven());
    script.stored(0, 0..=0, &[3, 5, 9, 2, 12]);
    script.stored(2, 2..=2, &[6]);
    // The chunk itself is held by then.
    script.stored(1, 0..=2, &[]);
    script.named(
        "f00003",
        "run-joined",
        "chunks 0, 2, 1: 0..0, 2..2, and the last one joins both to 0..2 (141)",
        RUN,
    )
}

fn repeat() -> Named {
    let mut script = Script::opened(seven());
    script.stored(0, 0..=0, &[3, 5, 9, 2, 12]);
    script.stored(1, 0..=1, &[]);
    script.stored(2, 0..=2, &[6]);
    script.stored(3, 0..=3, &[]);
    // In the middle, at the ends, and with hashes.
    script.stored(1, 0..=3, &[]);
    script.stored(2, 0..=3, &[6]);
    script.stored(0, 0..=3, &[]);
    script.stored(3, 0..=3, &[]);
    // The delay is as before: 5 - 3.
    let late = to(1, &[&data(1, 1, 3, script.pack.chunk(1))]);
    script.line(frame(5, &late), &ack_line(PEER, 0..=3, 2));
    // Refused, it is not acknowledged.
    let damaged = script.damaged(1);
    script.take(10, 1, &[&damaged]);
    script.take(8, 1, &[&data(1, 1, 0, &[1; 1018])]);
    script.stored(1, 0..=3, &[]);
    script.named(
        "f00004",
        "run-repeat",
        "a repeat in the middle of a run or at its ends names all of it (142)",
        "02, No. 2: This replaces what an ACK names in 01, for repeated chunks too",
    )
}

fn gap() -> Named {
    let mut script = Script::opened(seven());
    script.stored(1, 1..=1, &[3, 5, 9, 0, 12]);
    script.stored(0, 0..=1, &[]);
    script.stored(3, 3..=3, &[4]);
    script.stored(4, 3..=4, &[10]);
    // The gap is chunk 2: its leaf is trusted, and other bytes are refused.
    let damaged = script.damaged(2);
    script.take(10, 1, &[&damaged]);
    script.stored(1, 0..=1, &[]);
    script.stored(3, 3..=4, &[]);
    // What the peer has is not what we hold.
    script.acknowledged(1, PEER, 1, 0..=1, &[&have(0, 6), &ack(2, 2, 0)]);
    // Another one is chunk 5.
    script.stored(6, 6..=6, &[]);
    script.stored(4, 3..=4, &[]);
    script.named(
        "f00005",
        "run-gap",
        "a chunk that is not held ends a run, also if it came damaged or the peer has it (143)",
        RUN,
    )
}

fn last_missing() -> Named {
    let mut script = Script::opened(seven());
    script.stored(0, 0..=0, &[3, 5, 9, 2, 12]);
    script.stored(1, 0..=1, &[]);
    script.stored(2, 0..=2, &[6]);
    script.stored(6, 6..=6, &[]);
    script.stored(5, 5..=6, &[8]);
    script.stored(4, 4..=6, &[]);
    // 0..2 and 4..6 are one run now.
    script.stored(3, 0..=6, &[]);
    script.stored(0, 0..=6, &[]);
    script.stored(6, 0..=6, &[]);
    script.named(
        "ff0007",
        "run-last-missing",
        "the last chunk to come joins two runs to the whole pack (141)",
        RUN,
    )
}

fn last_chunk() -> Named {
    let mut script = Script::opened(seven());
    script.stored(5, 5..=5, &[3, 9, 8, 12]);
    script.stored(6, 5..=6, &[]);
    script.stored(4, 4..=6, &[]);
    script.stored(6, 4..=6, &[]);
    script.named(
        "f00003",
        "run-last-chunk",
        "a run ends with the pack's last chunk (144)",
        RUN,
    )
}

/// The even chunks from the first on, each alone, then the odd ones from the last
/// on, each with the one before it and all behind it.
fn whole_32() -> Named {
    let mut script = Script::opened(pattern(32_768));
    for even in (0..32).step_by(2) {
        script.stored(even, even..=even, &least_of_32(even));
    }
    for odd in (1..32).step_by(2).rev() {
        script.stored(odd, odd - 1..=31, &[]);
    }
    for again in [0, 1, 15, 16, 30, 31] {
        script.stored(again, 0..=31, &[]);
    }
    script.named(
        "ff0020",
        "run-whole-32",
        "N=32: even chunks are alone, odd ones from the last on join them; then each names 0..31 (144)",
        RUN,
    )
}
