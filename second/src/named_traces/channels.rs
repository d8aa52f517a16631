//! The channel table: traps 65 to 75.

use super::script::*;
use super::Named;
use crate::packets::*;

pub fn traces() -> Vec<Named> {
    vec![
        sixteen(),
        closed(),
        sources(),
        destination_zero(),
        destination_before(),
    ]
}

fn sixteen() -> Named {
    let mut script = Script::new(abc());
    let root = script.pack.root;
    let opening = handshake(7, &fixed(&root));
    for source in 1..=16 {
        script.open(source);
    }
    script.take(4, 0, &[&handshake(7, &[255])]);
    script.take(6, 0, &[&opening]);
    script.take(6, 0, &[&opening]);
    script.close(3);
    // The ID goes on: it is 17 now.
    script.open(7);
    script.take(6, 0, &[&opening]);
    script.take(5, 3, &[]);
    script.take(0, 17, &[]);
    script.close(16);
    script.close(1);
    script.open(8);
    script.open(9);
    script.take(6, 0, &[&opening]);
    script.take(0, 18, &[]);
    script.take(0, 19, &[]);
    script.take(5, 20, &[]);
    script.named("f00000", "sixteen-channels", "16 open: 6; one closed: its row is used; refused openings do not raise the ID (66, 67, 70)", "16 open: 6; one closed: its row is used; The ID passed is 1 and rises by one with each channel opened")
}

fn closed() -> Named {
    let mut script = Script::opened(abc());
    script.open(5);
    script.close(1);
    script.take(5, 1, &[&closing()]);
    script.take(5, 1, &[]);
    let chunk = script.data(0);
    script.take(5, 1, &[&chunk]);
    script.take(0, 2, &[]);
    // Our ID is not the peer's channel.
    script.take(5, 5, &[]);
    script.open(5);
    script.take(5, 1, &[]);
    script.acknowledged(3, 5, 0, 0..=0, &[]);
    script.close(2);
    script.close(3);
    script.take(5, 3, &[]);
    script.named(
        "ff0001",
        "closed-channels",
        "a closed channel is none, its ID is never given again (68, 69)",
        "a closing one to an open channel frees the row",
    )
}

fn sources() -> Named {
    let mut script = Script::new(abc());
    // The source is one of our IDs to come, another peer's, and the largest.
    for source in [2, 1, 2, u32::MAX] {
        script.open(source);
    }
    for (id, source) in [(1, 2), (2, 1), (3, 2), (4, u32::MAX)] {
        script.acknowledged(id, source, 0, 0..=0, &[]);
    }
    script.named(
        "ff0001",
        "sources",
        "replies go to the peer's source, which may be any number but 0 (71, 73, 110)",
        "Replies go to the peer's source channel",
    )
}

fn destination_zero() -> Named {
    let mut script = Script::opened(abc());
    let chunk = script.data(0);
    script.close(1);
    script.take(5, 0, &[&have(0, 0)]);
    script.take(5, 0, &[&chunk]);
    script.take(5, 0, &[]);
    script.open(PEER);
    script.take(5, 0, &[&CHOKE]);
    script.take(5, 0, &[&chunk]);
    script.named(
        "f00000",
        "destination-zero",
        "no HANDSHAKE to channel 0, with free rows (74)",
        "(0 without HANDSHAKE too)",
    )
}

fn destination_before() -> Named {
    let mut script = Script::opened(seven());
    let root = script.pack.root;
    script.take(5, 2, &[&have(0, 7)]);
    script.take(5, 2, &[&data(7, 7, 0, &[])]);
    script.take(5, 2, &[&data(0, 0, 0, &[])]);
    script.take(5, 2, &[&handshake(5, &[255])]);
    script.take(5, 2, &[&handshake(5, &fixed(&root))]);
    script.named(
        "f00000",
        "destination-before-later",
        "no channel, and 4, 7, 8 or 9 besides (75)",
        "Order: ... destination 5, phase 3, options 4, ... ranges",
    )
}
