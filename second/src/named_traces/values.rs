//! 01's example, its tried values as far as they show, and the errors that it
//! expects someone to make.

use super::script::*;
use super::Named;
use crate::packets::*;
use crate::sha256::sha256;
use crate::traces::pack::Pack;

pub fn traces() -> Vec<Named> {
    vec![
        example(),
        every_number(),
        seven_least(),
        seven_all(),
        short_pack(1, "length-1", "L=1: one chunk of one byte"),
        short_pack(1024, "length-1024", "L=1,024: one chunk"),
        length_1025(),
        lone_peak(),
        peaks_kept(),
        fillers_hashed(),
        fillers_hashed_root(),
        repeat_unchecked(),
    ]
}

fn example() -> Named {
    let mut pack = Pack::of(vec![0]);
    pack.root = [0; 32];
    let mut script = Script::opened(pack);
    script.take(5, 0x22, &[]);
    script.named(
        "f00000",
        "example",
        "01's example",
        "The replay program: Input ... Whole output",
    )
}

fn every_number() -> Named {
    let mut script = Script::opened(seven());
    let root = script.pack.root;
    let all = script.hashes(&[3, 5, 9, 2, 12]);
    script.datagram(1, &[0, 0, 0]);
    script.take(2, 1, &[&REFUSED]);
    script.take(3, 1, &[&CHOKE, &closing()]);
    script.take(4, 0, &[&handshake(5, &[255])]);
    script.take(5, 2, &[]);
    for source in 2..=16 {
        script.open(source);
    }
    script.take(6, 0, &[&handshake(17, &fixed(&root))]);
    script.take(7, 1, &[&have(0, 7)]);
    script.take(8, 1, &[&all, &data(0, 0, 0, &[1; 1023])]);
    let chunk = script.data(0);
    script.take(9, 1, &[&chunk]);
    let damaged = script.damaged(0);
    script.take(10, 1, &[&all, &damaged]);
    script.line("", "0f");
    script.stored(0, 0..=0, &[3, 5, 9, 2, 12]);
    script.named(
        "f00001",
        "every-number",
        "each number that replay can give but 0c: 1 to 10, 0f, and 0",
        "Numbers given back",
    )
}

fn seven_least() -> Named {
    let mut script = Script::opened(seven());
    script.stored(0, 0..=0, &[3, 5, 9, 2, 12]);
    script.stored(1, 0..=1, &[]);
    script.stored(2, 0..=2, &[6]);
    script.stored(3, 0..=3, &[]);
    script.stored(4, 0..=4, &[10]);
    script.stored(5, 0..=5, &[]);
    script.stored(6, 0..=6, &[]);
    script.named(
        "ff0007",
        "seven-least-hashes",
        "L=7,162 in order with 5, 0, 1, 0, 1, 0, 0 hashes; the first datagram has 1,250 bytes (108)",
        "N=7 taken in order, least hashes",
    )
}

fn seven_all() -> Named {
    let mut script = Script::opened(seven());
    script.stored(0, 0..=0, &[3, 5, 9, 2, 12]);
    script.stored(1, 0..=1, &[3, 5, 9, 0, 12]);
    script.stored(2, 0..=2, &[3, 1, 9, 6, 12]);
    script.stored(3, 0..=3, &[3, 1, 9, 4, 12]);
    script.stored(4, 0..=4, &[3, 9, 10, 12]);
    script.stored(5, 0..=5, &[3, 9, 8, 12]);
    script.stored(6, 0..=6, &[3, 9, 12]);
    script.named(
        "ff0007",
        "seven-all-hashes",
        "L=7,162 in order, each chunk as a store writes it",
        "Writing a chunk: all peaks and all siblings below its peak",
    )
}

fn short_pack(length: u32, name: &'static str, shows: &'static str) -> Named {
    let mut script = Script::opened(pattern(length));
    script.take(0, 1, &[&have(0, 0)]);
    script.take(7, 1, &[&have(0, 1)]);
    script.stored(0, 0..=0, &[]);
    script.named(
        "ff0001",
        name,
        shows,
        "L=1,024 gives 1; N = 1: the root is the hash of the only chunk",
    )
}

fn length_1025() -> Named {
    let mut script = Script::opened(pattern(1025));
    script.take(0, 1, &[&have(0, 1)]);
    script.take(7, 1, &[&have(0, 2)]);
    // One byte, and the hash of the other chunk.
    script.stored(1, 1..=1, &[0]);
    script.stored(0, 0..=1, &[]);
    script.named(
        "ff0002",
        "length-1025",
        "L=1,025: two chunks, the last of one byte",
        "1,025 gives 2",
    )
}

fn lone_peak() -> Named {
    let mut script = Script::opened(seven());
    let root = script.pack.root;
    let lone = integrity(0, 7, &root);
    let below = script.hashes(&[5, 2]);
    let chunk = script.data(0);
    script.take(7, 1, &[&lone]);
    script.take(7, 1, &[&lone, &data(7, 7, 0, &[])]);
    script.take(7, 1, &[&lone, &below, &chunk]);
    script.take(7, 1, &[&have(0, 7)]);
    // The root is trusted, but the peaks are not.
    script.take(9, 1, &[&below, &chunk]);
    script.named(
        "f00000",
        "error-lone-peak",
        "the root as peak 7 of eight chunks proves nothing (79)",
        "Believing a peer's size",
    )
}

fn peaks_kept() -> Named {
    let mut script = Script::opened(seven());
    let all = script.hashes(&[3, 5, 9, 2, 12]);
    let damaged = script.damaged(0);
    script.take(10, 1, &[&all, &damaged]);
    script.refused(9, 0, &[5, 2]);
    script.refused(9, 6, &[]);
    script.stored(0, 0..=0, &[3, 5, 9, 2, 12]);
    script.named(
        "f00001",
        "error-peaks-kept",
        "a damaged chunk with good peaks leaves none of them (92)",
        "Keeping good peaks from a datagram whose chunk failed",
    )
}

/// Five chunks, the last of one byte: nodes 9 and 11 have filler below them, 13
/// is all filler.
fn five() -> Pack {
    pattern(4_097)
}

fn fillers_hashed() -> Named {
    let mut script = Script::opened(five());
    script.stored(4, 4..=4, &[3, 8]);
    script.named(
        "f00001",
        "error-fillers-hashed",
        "N=5: the all-zero node 13 goes up as zeros, leaf 8 with its filler is hashed (101)",
        "Hashing two zero fillers instead of passing zero up",
    )
}

/// The order is for the root that someone finds who hashes two fillers.
fn fillers_hashed_root() -> Named {
    let mut pack = five();
    let pair = |left: &[u8], right: &[u8]| sha256(&[left, right].concat());
    let filler = [0; 32];
    let right = pair(&pair(&pack.hash(8), &filler), &pair(&filler, &filler));
    pack.root = pair(&pack.hash(3), &right);
    let mut script = Script::opened(pack);
    script.refused(10, 4, &[3, 8]);
    script.named(
        "f00000",
        "error-fillers-hashed-root",
        "N=5 under the root that hashed fillers give: the peaks do not give it",
        "two empty (all filler) children give an all-zero parent",
    )
}

fn repeat_unchecked() -> Named {
    let mut script = Script::opened(seven());
    script.stored(0, 0..=0, &[3, 5, 9, 2, 12]);
    let damaged = script.damaged(0);
    let all = script.hashes(&[3, 5, 9, 2, 12]);
    script.take(10, 1, &[&damaged]);
    script.take(10, 1, &[&all, &damaged]);
    script.take(8, 1, &[&data(0, 0, 0, &[0; 1018])]);
    script.stored(0, 0..=0, &[]);
    script.named(
        "f00001",
        "error-repeat-unchecked",
        "a held chunk with other bytes or another length is refused, with its own it is acknowledged (98, 99)",
        "Taking a repeated chunk unchecked because its bit is set",
    )
}
