use super::*;
use crate::wire::{add, begin, MAX_SIZE};

const BOTH: [Addressing; 2] = [Addressing::Bins, Addressing::Ranges];

/// The answer when it is added to a datagram without messages.
fn answer(addressing: Addressing, (message, slice): WithSource) -> u8 {
    let mut room = [0; MAX_SIZE];
    let len = begin(&mut room, 5).unwrap();
    add(&mut room, addressing, len, &message, &slice)
        .err()
        .unwrap_or(0)
}

#[test]
fn refused_messages_are_refused() {
    for addressing in BOTH {
        let mut cases = Cases::new(addressing, 1);
        let mut seen = [0; 4];
        for _ in 0..10_000 {
            assert_eq!(answer(addressing, cases.reversed()), 2);
            assert_eq!(answer(addressing, cases.outside()), 2);
            let (message, slice) = cases.several_chunks();
            let Message::Data {
                first, last, len, ..
            } = message
            else {
                panic!("{message:?}");
            };
            assert!(first < last);
            let room = MAX_SIZE - 4 - cases.around_chunk();
            let expected = if len > room { 1 } else { 2 };
            assert_eq!(answer(addressing, (message, slice)), expected);
            seen[usize::from(answer(addressing, cases.at_the_border()))] += 1;
        }
        assert!(seen.iter().all(|&count| count > 500), "{seen:?}");
    }
}

/// The chunks of a message.
fn chunks(message: Message) -> (u32, u32) {
    match message {
        Message::Ack { first, last, .. }
        | Message::Have { first, last }
        | Message::Integrity { first, last, .. }
        | Message::Request { first, last }
        | Message::Cancel { first, last }
        | Message::Data { first, last, .. } => (first, last),
        _ => panic!("{message:?}"),
    }
}

#[test]
fn no_nodes_and_no_bins() {
    for addressing in BOTH {
        let mut cases = Cases::new(addressing, 2);
        for _ in 0..10_000 {
            let (message, slice) = cases.no_node();
            let (first, last) = chunks(message);
            assert!(first < last && tree::node_of_range(first, last).is_none());
            assert_eq!(answer(addressing, (message, slice)), 2);
        }
    }
    let mut cases = Cases::new(Addressing::Bins, 3);
    for _ in 0..10_000 {
        let (message, slice) = cases.no_bin();
        let (first, last) = chunks(message);
        let node = tree::node_of_range(first, last).unwrap();
        assert!(node >= 0xffff_ffff || node == 0x7fff_ffff);
        assert_eq!(answer(Addressing::Bins, (message, slice)), 2);
    }
}

#[test]
fn sound_messages_are_sound() {
    for addressing in BOTH {
        let mut cases = Cases::new(addressing, 4);
        let room = MAX_SIZE - 4 - cases.around_chunk();
        let (mut empty, mut everything) = (0, 0);
        for _ in 0..10_000 {
            let (message, slice) = cases.sound_message();
            let fits = !matches!(message, Message::Data { len, .. } if len > room);
            assert_eq!(answer(addressing, (message, slice)), u8::from(!fits));
            match message {
                Message::Empty { .. } => empty += 1,
                Message::Have {
                    first: 0,
                    last: 0x7fff_ffff,
                } => everything += 1,
                _ => {}
            }
        }
        let special = empty > 100 && everything > 50;
        assert_eq!(special, addressing == Addressing::Bins);
    }
}
