//! What the search tries, in a few words.

use crate::candidate::{pieces, Candidate};
use crate::scenes::{addressing, Scene, CALLING};
use second::wire::{self, Message, Step};

/// The messages of a datagram, and what it meets.
pub fn told(candidate: &Candidate) -> String {
    let mut words = groups(&candidate.datagram);
    let of_one_kind = words.len() < 2;
    let mut say = |what: &str| words.push(what.to_string());
    if candidate.mixed && !of_one_kind {
        say("each time in another order");
    }
    let destination = candidate.datagram.first_chunk().copied();
    match destination.map(u32::from_be_bytes) {
        Some(0) => say("to channel 0"),
        Some(CALLING) => say("to a calling channel"),
        _ => {}
    }
    match candidate.scene {
        Scene::Whole => say("all chunks held"),
        Scene::Full => say("no row free"),
        Scene::Fresh | Scene::Short => {}
    }
    words.join(", ")
}

/// How many messages of each kind a datagram has, and their range if it is one.
fn groups(datagram: &[u8]) -> Vec<String> {
    let mut groups: Vec<(&str, usize, Option<[u32; 2]>)> = Vec::new();
    for piece in pieces(datagram) {
        let (kind, range) = kind_of(piece);
        match groups.iter_mut().find(|group| group.0 == kind) {
            Some((_, count, common)) => {
                *count += 1;
                *common = common.filter(|&common| Some(common) == range);
            }
            None => groups.push((kind, 1, range)),
        }
    }
    if groups.is_empty() {
        return vec!["no message".to_string()];
    }
    let told = groups.into_iter().map(|(kind, count, range)| match range {
        Some([first, last]) => format!("{count} {kind} of {first}..{last}"),
        None => format!("{count} {kind}"),
    });
    told.collect()
}

/// What a piece of a datagram is called, and its range.
fn kind_of(piece: &[u8]) -> (&'static str, Option<[u32; 2]>) {
    let Step::Read { message, .. } = wire::step(addressing(), piece, 0) else {
        return ("that cannot be read", None);
    };
    match message {
        Message::Handshake { .. } => ("HANDSHAKE", None),
        Message::Data { first, last, .. } => ("DATA", Some([first, last])),
        Message::Ack { first, last, .. } => ("ACK", Some([first, last])),
        Message::Have { first, last } => ("HAVE", Some([first, last])),
        Message::Integrity { .. } => ("INTEGRITY", None),
        Message::Request { first, last } => ("REQUEST", Some([first, last])),
        Message::Cancel { first, last } => ("CANCEL", Some([first, last])),
        Message::Choke => ("CHOKE", None),
        Message::Unchoke => ("UNCHOKE", None),
        Message::Empty { .. } => ("of no chunk", None),
    }
}
