//! HANDSHAKEs, their place and their channel numbers: traps 40 to 52.

use super::script::*;
use super::Named;
use crate::packets::*;

pub fn traces() -> Vec<Named> {
    vec![
        not_alone(),
        two_then_three(),
        both_zero(),
        closing_with_options(),
        handshake_cut(),
        open_channel(),
    ]
}

fn not_alone() -> Named {
    let mut script = Script::opened(abc());
    let good = handshake(5, &fixed(&script.pack.root));
    script.take(3, 0, &[&good, &CHOKE]);
    script.take(3, 0, &[&good, &[255]]);
    script.take(3, 0, &[&good, &[0]]);
    script.take(3, 0, &[&good, &good]);
    script.take(3, 0, &[&CHOKE, &good]);
    script.take(3, 0, &[&have(0, 0), &good]);
    script.take(3, 1, &[&closing(), &UNCHOKE]);
    script.take(3, 1, &[&UNCHOKE, &closing()]);
    // The ID has not risen.
    script.open(5);
    script.named(
        "f00000",
        "handshake-not-alone",
        "a message before it, or any byte behind it (40, 41, 42)",
        "HANDSHAKE not alone (a message before or any byte behind it, judged at its place)",
    )
}

fn two_then_three() -> Named {
    let mut script = Script::opened(abc());
    let root = script.pack.root;
    let good = fixed(&root);
    let unknown = [&[0, 1, 10, 0], &good[2..]].concat();
    let swapped = [&[1, 1, 0, 1], &good[4..]].concat();
    script.take(2, 0, &[&handshake(5, &unknown), &CHOKE]);
    script.take(2, 0, &[&CHOKE, &handshake(5, &swapped)]);
    script.take(2, 0, &[&handshake(0, &unknown)]);
    script.take(2, 1, &[&handshake(0, &[0, 1])]);
    script.take(2, 9, &[&handshake(0, &swapped)]);
    script.named(
        "f00000",
        "handshake-two-then-three",
        "options at fault in a HANDSHAKE that is misplaced besides (44, 45)",
        "in each 2, then 3",
    )
}

fn both_zero() -> Named {
    let mut script = Script::opened(abc());
    let root = script.pack.root;
    script.take(3, 0, &[&closing()]);
    script.take(3, 0, &[&handshake(0, &fixed(&root))]);
    script.take(3, 0, &[&handshake(0, &[0, 1, 255])]);
    script.named(
        "f00000",
        "handshake-both-zero",
        "destination 0 and source 0, with End, 01's options and others (46, 47)",
        "both channel numbers 0",
    )
}

fn closing_with_options() -> Named {
    let mut script = Script::opened(abc());
    let root = script.pack.root;
    for destination in [1, 2] {
        script.take(3, destination, &[&handshake(0, &fixed(&root))]);
        script.take(3, destination, &[&handshake(0, &[0, 1, 255])]);
        script.take(3, destination, &[&handshake(0, &[8, 0, 255])]);
    }
    script.take(5, 2, &[&closing()]);
    // None of these has closed it.
    script.take(0, 1, &[]);
    script.close(1);
    script.take(5, 1, &[]);
    script.named(
        "f00000",
        "closing-with-options",
        "to an open channel and to none: 3 before 5; with End alone to none: 5 (48, 49, 50)",
        "closing one with other options",
    )
}

fn handshake_cut() -> Named {
    let mut script = Script::opened(abc());
    let root = script.pack.root;
    let good = handshake(5, &fixed(&root));
    for length in 1..good.len() {
        script.take(2, 0, &[&good[..length]]);
    }
    script.take(2, 1, &[&closing()[..5]]);
    script.take(2, 1, &[&closing()[..4]]);
    script.open(5);
    script.named(
        "f00000",
        "handshake-cut",
        "a HANDSHAKE cut at every place (51, 52, 56)",
        "cut short; option ... without End",
    )
}

fn open_channel() -> Named {
    let mut script = Script::opened(abc());
    let root = script.pack.root;
    let good = fixed(&root);
    let mut other = good.clone();
    other[1] = 2;
    // Another source.
    script.take(3, 1, &[&handshake(5, &other)]);
    script.take(3, 1, &[&handshake(5, &[255])]);
    script.take(3, 1, &[&handshake(5, &good)]);
    // The same source.
    script.take(0, 1, &[&handshake(PEER, &good)]);
    script.take(4, 1, &[&handshake(PEER, &other)]);
    script.take(4, 1, &[&handshake(PEER, &[255])]);
    script.take(0, 1, &[]);
    // Another channel for the same source.
    script.open(PEER);
    script.take(0, 2, &[&handshake(PEER, &good)]);
    script.named("f00000", "open-channel-handshakes", "to an open channel from another source, with wrong options, again, and from a source with a channel (62 to 65)", "HANDSHAKE from a new source to an open one; phase 3, options 4; from the same source it changes nothing")
}
