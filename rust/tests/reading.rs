//! Reading datagrams: the hand-made ones of `tests/wire/`, whose numbers were worked out on paper.

use crate::support::{any_order, bytes, BINS, RANGES, SEVEN};
use ppspp::{destination, messages, Addressing, Malformed, Message, Options, Store};
use second::by_hand::{parse, HandMade};
use std::collections::HashSet;

/// The repository's hand-made datagrams, each with its addressing.
fn hand_made() -> Vec<(Addressing, HandMade)> {
    let of = |addressing, text| {
        let all = parse(text).expect("readable lines");
        all.into_iter().map(move |made| (addressing, made))
    };
    let ranges = include_str!("../../tests/wire/datagrams.txt");
    let bins = include_str!("../../tests/wire/bins.txt");
    of(RANGES, ranges).chain(of(BINS, bins)).collect()
}

/// The messages up to the end or the first that cannot be read, and whether there is one of these.
fn read(addressing: Addressing, datagram: &[u8]) -> (Vec<Message<'_>>, Option<Malformed>) {
    let mut sound = Vec::new();
    for found in messages(addressing, datagram) {
        match found {
            Ok((_, message)) => sound.push(message),
            Err(malformed) => return (sound, Some(malformed)),
        }
    }
    (sound, None)
}

/// Whether a node has two INTEGRITY messages.
fn node_twice(messages: &[Message<'_>]) -> bool {
    let mut seen = HashSet::new();
    messages.iter().any(|message| match *message {
        Message::Integrity { first, last, .. } => !seen.insert((first, last)),
        _ => false,
    })
}

/// Whether it is a HANDSHAKE.
fn is_handshake(message: &Message<'_>) -> bool {
    matches!(message, Message::Handshake { .. })
}

#[test]
fn messages_of_hand_made_datagrams_are_as_their_numbers_say() {
    for (addressing, made) in hand_made() {
        let line = format!("{addressing:?}, line {}", made.line);
        let (sound, malformed) = read(addressing, &made.datagram);
        let mut sound_ones = sound.iter();
        match made.number {
            0 => assert!(malformed.is_none() && !node_twice(&sound), "{line}"),
            // The size is no matter of single messages.
            1 => (),
            2 => assert!(malformed.is_some() || node_twice(&sound), "{line}"),
            // Given for a HANDSHAKE that can be read, as can all before it.
            3 => assert!(sound_ones.any(is_handshake), "{line}"),
            _ => panic!("{line} has another number"),
        }
    }
}

#[test]
fn store_answers_hand_made_datagrams_with_their_numbers() {
    // Without a channel, 3 is given for the layout alone.
    let mut seen = [[0; 4]; 2];
    for (addressing, made) in hand_made() {
        let HandMade { line, number, .. } = made;
        seen[usize::from(addressing == BINS)][usize::from(number)] += 1;
        let order = any_order(SEVEN).addressing(addressing);
        let mut store = Store::start(order).expect("a pack's length");
        let answer = store.take(0, 1, &made.datagram);
        let answer = answer.map_err(|refused| refused.refusal().number());
        match number {
            0 => assert!(!matches!(answer, Err(1..=3)), "{addressing:?}, line {line}"),
            _ => assert_eq!(answer, Err(number.into()), "{addressing:?}, line {line}"),
        }
    }
    assert!(seen.iter().flatten().all(|&count| count > 0), "{seen:?}");
}

#[test]
fn messages_stop_behind_the_first_refused_one() {
    let datagram = bytes("00000005 0a 03 00000005 00000004 0b");
    let wanted = [Ok((4, Message::Choke)), Err(Malformed { place: 5 })];
    assert!(messages(RANGES, &datagram).eq(wanted));
}

#[test]
fn messages_have_their_places() {
    let datagram = bytes(
        "00000005 0a 03 00000001 00000002 04 00000000 00000001 07*32 01 00000003 00000003 0000000000000009 616263",
    );
    let wanted = [
        (4, Message::Choke),
        (5, Message::Have { first: 1, last: 2 }),
        (
            14,
            Message::Integrity {
                first: 0,
                last: 1,
                hash: &[7; 32],
            },
        ),
        (
            55,
            Message::Data {
                first: 3,
                last: 3,
                timestamp: 9,
                bytes: b"abc",
            },
        ),
    ];
    assert!(messages(RANGES, &datagram).eq(wanted.map(Ok)));
}

#[test]
fn options_are_told_apart() {
    let of = |options: &str| bytes(&format!("00000000 00 00000011 {options}"));
    let fixed = of("00010101020020 07*32 03010402060209 00000400 ff");
    let other = of("00020101020020 07*32 03010402060209 00000400 ff");
    let end = of("ff");
    let root = &[7; 32];
    let tried = [
        (fixed, Options::Fixed { root }),
        (other, Options::Other),
        (end, Options::End),
    ];
    for (datagram, options) in tried {
        let wanted = Message::Handshake {
            source: 17,
            options,
        };
        assert!(messages(RANGES, &datagram).eq([Ok((4, wanted))]));
    }
}

#[test]
fn datagram_of_no_message() {
    for digits in ["", "00", "000000", "00000005"] {
        assert!(
            messages(RANGES, &bytes(digits)).next().is_none(),
            "{digits}"
        );
    }
}

#[test]
fn destination_is_the_first_four_bytes() {
    assert_eq!(destination(&bytes("01020304")), Some(0x0102_0304));
    assert_eq!(destination(&bytes("ffffffff 0a")), Some(u32::MAX));
    assert_eq!(destination(&bytes("010203")), None);
    assert_eq!(destination(&[]), None);
}
