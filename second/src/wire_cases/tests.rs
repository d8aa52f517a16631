//! The shares that the doc comments tell of.

use super::*;
use crate::tree;
use crate::wire::{self, add, begin, layout, step, Layout, Message, Options, Step};
use std::collections::HashSet;

const COUNT: usize = 20_000;

const BOTH: [Addressing; 2] = [Addressing::Bins, Addressing::Ranges];

/// The number of a datagram's layout.
fn number(addressing: Addressing, datagram: &[u8]) -> u8 {
    let layout = layout(addressing, datagram, &mut Vec::new());
    layout.err().unwrap_or(0)
}

#[test]
fn a_seed_always_gives_the_same() {
    for addressing in BOTH {
        let datagrams = |seed, count| datagrams(addressing, seed, count);
        let messages = |seed| messages(addressing, seed, 300);
        let first: Vec<_> = datagrams(7, 300).collect();
        assert!(datagrams(7, 300).eq(first.iter().cloned()));
        assert!(datagrams(7, 100).eq(first[..100].iter().cloned()));
        assert!(datagrams(8, 300).ne(first.iter().cloned()));
        assert_eq!(messages(7), messages(7));
        assert_ne!(messages(7), messages(8));
    }
}

/// The numbers that SplitMix64 is published with, for the seed 1234567.
#[test]
fn published_random_numbers() {
    let mut random = Random::new(1_234_567);
    for expected in [
        6_457_827_717_110_365_317,
        3_203_168_211_198_807_973,
        9_817_491_932_198_370_423,
    ] {
        assert_eq!(random.next(), expected);
    }
}

#[test]
fn shares_of_the_numbers() {
    for addressing in BOTH {
        let mut counts = [0; 4];
        for datagram in datagrams(addressing, 1, COUNT) {
            assert!(datagram.len() <= LONGEST);
            counts[usize::from(number(addressing, &datagram))] += 1;
        }
        assert!(counts[0] > COUNT / 3, "{counts:?}");
        for count in &counts[1..] {
            assert!(*count > COUNT / 100, "{counts:?}");
        }
    }
}

#[test]
fn sound_datagrams_are_sound() {
    // Under bins, INTEGRITY has no node of height 31 or 32.
    for (addressing, heights) in BOTH.into_iter().zip([31, 33]) {
        let mut cases = Cases::new(addressing, 2);
        let mut seen = HashSet::new();
        let (mut fixed, mut closing, mut end, mut other) = (0, 0, 0, 0);
        let (mut without, mut with_data, mut full) = (0, 0, 0);
        let mut nodes = Vec::new();
        for _ in 0..COUNT {
            let datagram = cases.sound().concat();
            match layout(addressing, &datagram, &mut nodes).expect("sound") {
                Layout::HandshakeAlone { source, options } => match options {
                    Options::Fixed { .. } => fixed += 1,
                    Options::EndOnly if source == 0 => closing += 1,
                    Options::EndOnly => end += 1,
                    Options::Other => other += 1,
                },
                Layout::Messages => without += 1,
                Layout::MessagesAndData { .. } => with_data += 1,
            }
            full += usize::from(datagram.len() == wire::MAX_SIZE);
            seen.extend(nodes.iter().map(|&(node, _)| tree::height(node)));
        }
        assert_eq!(seen.len(), heights);
        for (count, share) in [(fixed, 15), (closing, 25), (end, 50), (other, 25)] {
            assert!(count > COUNT / share);
        }
        assert!(without > COUNT / 3 && with_data > COUNT / 3 && full > COUNT / 100);
    }
}

/// Under bins, HAVE, REQUEST and CANCEL have bins of every height, the empty one
/// with them.
#[test]
fn bins_of_every_height() {
    let mut cases = Cases::new(Addressing::Bins, 6);
    let mut widths = [(); 3].map(|()| HashSet::new());
    let mut empty = [0; 3];
    for _ in 0..COUNT {
        let datagram = cases.sound_messages().concat();
        let mut at = MIN_SIZE;
        while let Step::Read { message, next } = step(Addressing::Bins, &datagram, at) {
            let index = match datagram[at] {
                3 => 0,
                8 => 1,
                _ => 2,
            };
            match message {
                Message::Have { first, last }
                | Message::Request { first, last }
                | Message::Cancel { first, last } => {
                    widths[index].insert(last - first);
                }
                Message::Empty { .. } => empty[index] += 1,
                _ => {}
            }
            at = next;
        }
    }
    assert_eq!(widths.map(|widths| widths.len()), [32; 3]);
    assert!(empty.iter().all(|&count| count > 100), "{empty:?}");
}

/// Each kind gives at least the numbers it is there for.
#[test]
fn each_kind_does_what_it_says() {
    type Kind = fn(&mut Cases) -> Vec<u8>;
    let kinds: [(Kind, &[u8]); 10] = [
        (Cases::byte_changed, &[0, 2, 3]),
        (|cases| cases.glued().concat(), &[0, 1, 2, 3]),
        (Cases::swapped, &[0, 1, 2, 3]),
        (Cases::cut_short, &[0, 1, 2]),
        (Cases::with_bytes_behind, &[0, 1, 2, 3]),
        (Cases::garbage, &[0, 1, 2, 3]),
        (Cases::around_the_limit, &[0, 1]),
        (Cases::node_twice, &[0, 2]),
        (Cases::handshake_at_fault, &[0, 2, 3]),
        (Cases::with_bin_at_fault, &[0, 2]),
    ];
    for (addressing, kinds) in BOTH.into_iter().zip([&kinds[..], &kinds[..9]]) {
        for (kind, numbers) in kinds {
            let mut cases = Cases::new(addressing, 3);
            let made = || number(addressing, &kind(&mut cases));
            let seen: HashSet<_> = std::iter::repeat_with(made).take(COUNT).collect();
            for number in *numbers {
                assert!(seen.contains(number), "{number}");
            }
        }
    }
    // A bin at fault is 2 but behind DATA, which swallows it.
    let mut cases = Cases::new(Addressing::Bins, 3);
    for _ in 0..COUNT {
        let message = cases.bin_at_fault();
        let datagram = [&[0, 0, 0, 5], &message[..]].concat();
        assert_eq!(number(Addressing::Bins, &datagram), 2);
    }
}

#[test]
fn cuts_are_all_prefixes() {
    let all: Vec<_> = cuts(&[1, 2]).collect();
    assert_eq!(all, [&[][..], &[1], &[1, 2]]);
}

/// On an empty datagram: two thirds or more are taken, and every refusal occurs.
#[test]
fn shares_of_the_messages() {
    for addressing in BOTH {
        let mut room = [0; wire::MAX_SIZE];
        let len = begin(&mut room, 5).unwrap();
        let mut counts = [0; 4];
        let (mut handshakes, mut data, mut far) = (0, 0, 0);
        let (mut several, mut reversed, mut empty) = (0, 0, 0);
        for (message, slice) in messages(addressing, 4, COUNT) {
            let answer = add(&mut room.clone(), addressing, len, &message, &slice);
            counts[usize::from(answer.err().unwrap_or(0))] += 1;
            match message {
                Message::Handshake { .. } => handshakes += 1,
                Message::Data { first, last, .. } => {
                    data += 1;
                    several += usize::from(first < last);
                    reversed += usize::from(first > last);
                }
                Message::Integrity { hash, .. } => far += usize::from(hash == usize::MAX),
                Message::Empty { .. } => empty += 1,
                _ => {}
            }
        }
        assert!(counts[0] > COUNT * 2 / 3, "{counts:?}");
        for count in &counts[1..] {
            assert!(*count > COUNT / 200, "{counts:?}");
        }
        assert!(handshakes > COUNT / 20 && data > COUNT / 20 && far > 0);
        assert!(several > COUNT / 50 && reversed > COUNT / 200 && empty > COUNT / 400);
    }
}

/// Added one after the other until one is refused, they meet every refusal.
#[test]
fn messages_meet_every_refusal_in_sequence() {
    for addressing in BOTH {
        let mut room = [0; wire::MAX_SIZE];
        let mut len = begin(&mut room, 5).unwrap();
        let mut counts = [0; 4];
        for (message, slice) in messages(addressing, 5, COUNT) {
            match add(&mut room, addressing, len, &message, &slice) {
                Ok(lengthened) => {
                    counts[0] += 1;
                    len = lengthened;
                }
                Err(number) => {
                    counts[usize::from(number)] += 1;
                    len = begin(&mut room, 5).unwrap();
                }
            }
        }
        assert!(
            counts.iter().all(|&count| count > COUNT / 200),
            "{counts:?}"
        );
    }
}
