//! Why a datagram's layout is refused: the numbers 2 and 3, from left to right, in each message 2 and then 3.

use crate::frame::CLOCK_DIGITS;
use crate::malformed;
use crate::naming::Naming;
use crate::words::counted;
use ppspp::{destination, Malformed, Message, Options};

/// The first fault of a datagram's layout.
pub struct Fault {
    /// The number that it is refused with, 2 or 3.
    pub number: u8,
    /// Which message it is, counted from 1.
    message: usize,
    /// The place of its type byte.
    place: usize,
    /// What is wrong with it, if it can be told.
    words: Option<String>,
}

impl Fault {
    /// The fault in a sentence.
    pub fn sentence(&self) -> String {
        let Fault { message, place, .. } = self;
        let digit = CLOCK_DIGITS + 2 * place + 1;
        let words = self.words.as_deref().unwrap_or("it cannot be read");
        format!("message {message} at byte {place} (digit {digit}): {words}")
    }
}

/// A message and its place, or a place where none can be read.
type Found<'a> = Result<(usize, Message<'a>), Malformed>;

/// The first fault of a datagram's layout.
pub fn fault(naming: Naming, datagram: &[u8]) -> Option<Fault> {
    let found: Vec<Found<'_>> = naming.messages(datagram).collect();
    (0..found.len()).find_map(|index| {
        let (place, number, words) = match &found[index] {
            Err(Malformed { place }) => (*place, 2, malformed::rule(naming, datagram, *place)),
            Ok((place, message)) => {
                let twice = twice(naming, &found[..index], message).map(|words| (2, words));
                let (number, words) =
                    twice.or_else(|| misplaced(datagram, &found, index).map(|w| (3, w)))?;
                (*place, number, Some(words))
            }
        };
        let message = index + 1;
        Some(Fault {
            number,
            message,
            place,
            words,
        })
    })
}

/// INTEGRITY for a node that came before.
fn twice(naming: Naming, before: &[Found<'_>], message: &Message<'_>) -> Option<String> {
    let Message::Integrity { .. } = message else {
        return None;
    };
    let same = |found: &Found<'_>| match found {
        Ok((_, before @ Message::Integrity { .. })) => before.range() == message.range(),
        _ => false,
    };
    let earlier = before.iter().position(same)? + 1;
    let chunks = naming.chunks(message);
    Some(format!(
        "INTEGRITY of {chunks} comes twice, before as message {earlier}"
    ))
}

/// A HANDSHAKE that is not alone or not sound.
fn misplaced(datagram: &[u8], found: &[Found<'_>], index: usize) -> Option<String> {
    let Ok((_, Message::Handshake { source, options })) = &found[index] else {
        return None;
    };
    if index > 0 {
        let before = counted(index, "message");
        return Some(format!(
            "HANDSHAKE must be alone, and stands behind {before}"
        ));
    }
    if let Some(behind) = found.get(1) {
        let place = match behind {
            Ok((place, _)) | Err(Malformed { place }) => *place,
        };
        let behind = counted(datagram.len() - place, "byte");
        return Some(format!(
            "HANDSHAKE must be alone, and has {behind} behind it"
        ));
    }
    if *source != 0 {
        return None;
    }
    if destination(datagram) == Some(0) {
        return Some("HANDSHAKE is from channel 0 to channel 0".to_string());
    }
    (*options != Options::End)
        .then(|| "HANDSHAKE is from channel 0, so it closes, but has options".to_string())
}
