//! Many datagrams and messages, under both methods.

use super::*;
use crate::wire_cases;

const BOTH: [Addressing; 2] = [Addressing::Bins, Addressing::Ranges];

/// On many datagrams so far, `add` is what 01's words say of the reader.
#[test]
fn adding_is_what_the_reader_says() {
    for addressing in BOTH {
        let cases = wire_cases::messages(addressing, 1, 60_000);
        let datagrams = wire_cases::datagrams(addressing, 2, 60_000);
        let mut counts = [0; 4];
        for (datagram, (message, source)) in datagrams.zip(&cases) {
            if datagram.len() > 2048 {
                continue;
            }
            let expected = plain::add(addressing, &datagram, message, source);
            counts[usize::from(*expected.as_ref().err().unwrap_or(&0))] += 1;
            let found = added_under(addressing, &datagram, *message, source);
            assert_eq!(found, expected, "{message:?}");
        }
        assert!(counts.iter().all(|&count| count > 1000), "{counts:?}");
    }
}

/// What is read can be written again, byte for byte.
#[test]
fn what_is_read_is_written_again() {
    for addressing in BOTH {
        let mut handshakes_with_others = 0;
        for datagram in wire_cases::datagrams(addressing, 3, 20_000) {
            if number_under(addressing, &datagram) == 0 {
                handshakes_with_others += usize::from(!written_again(addressing, &datagram));
            }
        }
        assert!(handshakes_with_others > 100);
    }
}

/// Writes a datagram again; not so for a HANDSHAKE with other options.
fn written_again(addressing: Addressing, datagram: &[u8]) -> bool {
    let destination = u32::from_be_bytes(datagram[..4].try_into().unwrap());
    let mut room = [0; 2048];
    let mut len = begin(&mut room, destination).unwrap();
    while let Step::Read { message, next } = step(addressing, datagram, len) {
        if let Message::Handshake {
            options: Options::Other,
            ..
        } = message
        {
            return false;
        }
        len = add(&mut room, addressing, len, &message, datagram).unwrap();
        assert_eq!(len, next);
    }
    assert_eq!(room[..len], *datagram);
    true
}

/// The steps and the layout tell the same of a datagram: the nodes and their
/// places, DATA, and where it is refused.
#[test]
fn steps_and_layouts_agree() {
    for addressing in BOTH {
        for datagram in wire_cases::datagrams(addressing, 4, 20_000) {
            let mut nodes = Vec::new();
            let layout = layout(addressing, &datagram, &mut nodes);
            if layout == Err(1) {
                continue;
            }
            let (found, last) = stepped(addressing, &datagram);
            assert!(found.starts_with(&nodes));
            match layout {
                Ok(Layout::MessagesAndData { chunk, start, .. }) => {
                    let is_it = |message| matches!(message, Message::Data { first, start: place, .. } if (first, place) == (chunk, start));
                    assert!(last.is_some_and(is_it));
                }
                Ok(_) => assert!(last.is_some() || datagram.len() == 4),
                Err(_) => {}
            }
        }
    }
}

/// The nodes of a datagram, and its last message if none is refused.
fn stepped(addressing: Addressing, datagram: &[u8]) -> (Vec<(u64, usize)>, Option<Message>) {
    let (mut nodes, mut last, mut at) = (Vec::new(), None, 4);
    loop {
        match step(addressing, datagram, at) {
            Step::Read { message, next } => {
                if let Message::Integrity { first, last, hash } = message {
                    nodes.push((u64::from(first) + u64::from(last), hash));
                }
                (last, at) = (Some(message), next);
            }
            Step::End => return (nodes, last),
            Step::Refused => return (nodes, None),
        }
    }
}
