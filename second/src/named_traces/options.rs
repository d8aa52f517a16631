//! Options: traps 53 to 61.

use super::script::*;
use super::Named;
use crate::packets::*;

pub fn traces() -> Vec<Named> {
    vec![
        unknown(),
        order(),
        added(),
        missing(),
        other_values(),
        swarm_ids(),
    ]
}

/// 01's fixed options one by one, without End.
fn choices(script: &Script) -> Vec<Vec<u8>> {
    let id = [&[2, 0, 32], &script.pack.root[..]].concat();
    vec![
        vec![0, 1],
        vec![1, 1],
        id,
        vec![3, 1],
        vec![4, 2],
        vec![6, 2],
        vec![9, 0, 0, 4, 0],
    ]
}

/// An opening with these options and End, which is refused.
fn refused(script: &mut Script, number: u8, choices: &[Vec<u8>]) {
    let options = [choices.concat(), vec![255]].concat();
    script.take(number, 0, &[&handshake(5, &options)]);
}

fn unknown() -> Named {
    let mut script = Script::new(abc());
    for code in [10, 11, 127, 128, 253, 254] {
        for place in [0, 3, 7] {
            let mut choices = choices(&script);
            choices.insert(place, vec![code, 0]);
            refused(&mut script, 2, &choices);
        }
    }
    script.open(5);
    script.named(
        "f00000",
        "options-unknown",
        "codes 10 to 254 (53)",
        "option unknown",
    )
}

fn order() -> Named {
    let mut script = Script::new(abc());
    for place in 0..6 {
        let mut swapped = choices(&script);
        swapped.swap(place, place + 1);
        refused(&mut script, 2, &swapped);
        let mut twice = choices(&script);
        twice.insert(place, twice[place].clone());
        refused(&mut script, 2, &twice);
    }
    script.open(5);
    script.named(
        "f00000",
        "options-order",
        "each two neighbours swapped, and each option twice (54, 55)",
        "Options are in rising code order, each once",
    )
}

fn added() -> Named {
    let mut script = Script::new(abc());
    // Each at its place in rising order.
    for (place, option) in [
        (5, vec![5, 0]),
        (6, vec![7, 0, 0, 0, 1]),
        (6, vec![8, 0]),
        (6, vec![8, 2, 0xff, 0xff]),
    ] {
        let mut choices = choices(&script);
        choices.insert(place, option);
        refused(&mut script, 4, &choices);
    }
    // Eight bytes behind code 7: the four last read as two options 0, or as one
    // 255 that ends them too early.
    let mut wide = choices(&script);
    wide.insert(6, vec![7, 0, 0, 0, 1, 0, 0, 0, 0]);
    refused(&mut script, 2, &wide);
    let mut ended = choices(&script);
    ended.insert(6, vec![7, 0, 0, 0, 1, 255, 0, 0, 0]);
    refused(&mut script, 3, &ended);
    // More supported messages than there are bytes.
    let mut cut = choices(&script);
    cut.insert(6, vec![8, 200]);
    refused(&mut script, 2, &cut);
    script.open(5);
    script.named(
        "f00000",
        "options-added",
        "options 5, 7 and 8, which 01's HANDSHAKE does not have (53, 58, 59)",
        "option missing or other than above",
    )
}

fn missing() -> Named {
    let mut script = Script::new(abc());
    refused(&mut script, 4, &[]);
    for place in 0..7 {
        let mut choices = choices(&script);
        choices.remove(place);
        refused(&mut script, 4, &choices);
    }
    script.open(5);
    script.named(
        "f00000",
        "options-missing",
        "End alone, and each option missing (61)",
        "option missing or other than above",
    )
}

fn other_values() -> Named {
    let mut script = Script::new(abc());
    for place in [0, 1, 3, 4, 5] {
        for value in [0, 3, 255] {
            let mut choices = choices(&script);
            choices[place][1] = value;
            refused(&mut script, 4, &choices);
        }
    }
    for size in [[0, 0, 4, 1], [0, 4, 0, 0], [0, 0, 0, 4], [255; 4]] {
        let mut choices = choices(&script);
        choices[6][1..].copy_from_slice(&size);
        refused(&mut script, 4, &choices);
    }
    script.open(5);
    script.named(
        "f00000",
        "options-other-values",
        "each value another (60)",
        "An opening or answering HANDSHAKE carries exactly the bytes",
    )
}

fn swarm_ids() -> Named {
    let mut script = Script::new(abc());
    for length in [0u16, 1, 31, 33, 64, 288] {
        let mut choices = choices(&script);
        let id = vec![7; usize::from(length)];
        choices[2] = [&[2], &length.to_be_bytes()[..], &id].concat();
        refused(&mut script, 4, &choices);
    }
    // 65,535 bytes that are not there.
    let mut cut = choices(&script);
    cut[2][1..3].copy_from_slice(&[255, 255]);
    refused(&mut script, 2, &cut);
    // 288 of which 32 are there: the length has 16 bits.
    let mut cut = choices(&script);
    cut[2][1..3].copy_from_slice(&[1, 32]);
    refused(&mut script, 2, &cut);
    for place in [0, 31] {
        let mut choices = choices(&script);
        choices[2][3 + place] ^= 1;
        refused(&mut script, 4, &choices);
    }
    script.open(5);
    script.named(
        "f00000",
        "swarm-ids",
        "swarm IDs of other lengths, cut ones, and other ones than the root (57, 60)",
        "2 swarm ID (16-bit length first)",
    )
}
