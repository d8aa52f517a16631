//! What a datagram did that was taken, told from the store before and after it, and from the ACK in the reply.

use crate::acknowledged::Acknowledged;
use crate::known::{Known, Told};
use crate::words;
use ppspp::{destination, Channel, Message, Store};

/// What is known beside the store of a datagram that was taken.
pub struct Taken<'a> {
    /// The datagram.
    pub datagram: &'a [u8],
    /// What the store knew before it.
    pub known: &'a Known,
    /// What its peer had told before, for a channel that was open.
    pub told: Option<&'a Told>,
    /// What the ACK in the reply names.
    pub acknowledged: Option<Acknowledged>,
}

/// What the datagram did, in sentences.
pub fn of(taken: &Taken<'_>, store: &Store) -> Vec<String> {
    let Taken {
        datagram, known, ..
    } = *taken;
    let read = known.naming().messages(datagram).flatten();
    let messages: Vec<Message<'_>> = read.map(|(_, message)| message).collect();
    let before = destination(datagram).and_then(|id| known.channel(id));
    let mut effects = match before {
        Some(channel) => on_channel(channel, &messages, taken, store),
        None => opened(known, store),
    };
    if effects.is_empty() {
        effects.push("nothing changed".to_string());
    }
    effects
}

/// The channel that was opened.
fn opened(known: &Known, store: &Store) -> Vec<String> {
    let new = store
        .channels()
        .filter(|channel| known.channel(channel.id).is_none());
    new.map(|channel| {
        let Channel { row, id, peer, .. } = channel;
        format!("opened channel {id} in row {row} for the peer's channel {peer}")
    })
    .collect()
}

/// What was done on a channel that was open.
fn on_channel(
    before: Channel,
    messages: &[Message<'_>],
    taken: &Taken<'_>,
    store: &Store,
) -> Vec<String> {
    let Channel { row, id, peer, .. } = before;
    let Some(after) = store.channel(id) else {
        return vec![format!("closed channel {id}, row {row} is free")];
    };
    let mut effects = Vec::new();
    match messages {
        [] => effects.push("a keepalive, nothing changed".to_string()),
        [Message::Handshake { .. }] => {
            let same = format!("channel {id} is open to the peer's channel {peer} already");
            effects.push(format!("{same}, nothing changed"));
        }
        [.., Message::Data { first, .. }] => effects.extend(stored(*first, peer, taken, store)),
        _ => {}
    }
    if let Some(told) = taken.told {
        effects.extend(newly_told(told, &Told::of(store, row, taken.known.n)));
    }
    match (before.choked, after.choked) {
        (false, true) => effects.push("the peer has choked us".to_string()),
        (true, false) => effects.push("the peer has unchoked us".to_string()),
        _ => {}
    }
    let hashes_alone = |message: &Message<'_>| matches!(message, Message::Integrity { .. });
    if effects.is_empty() && messages.iter().all(hashes_alone) {
        effects.push("hashes without DATA have no effect".to_string());
    }
    effects
}

/// What became of a chunk that was taken.
fn stored(chunk: u32, peer: u32, taken: &Taken<'_>, store: &Store) -> Vec<String> {
    let new = !taken.known.holds(chunk);
    let mut effects = vec![if new {
        format!("stored chunk {chunk}")
    } else {
        format!("chunk {chunk} was held already and is right again, nothing stored")
    }];
    effects.extend(taken.acknowledged.map(|acknowledged| {
        let chunks = acknowledged.words();
        format!("acknowledges {chunks} to the peer's channel {peer}")
    }));
    if new && store.missing().next().is_none() {
        effects.push("the pack is whole".to_string());
    }
    effects
}

/// What a peer has told newly.
fn newly_told(before: &Told, after: &Told) -> Vec<String> {
    let new = |after: &[u32], before: &[u32]| {
        let new = after.iter().filter(|&chunk| !before.contains(chunk));
        words::ranges(new.copied())
    };
    let changes = [
        ("now has", new(&after.has, &before.has)),
        ("now wants", new(&after.wants, &before.wants)),
        ("no longer wants", new(&before.wants, &after.wants)),
    ];
    let changes = changes.iter().filter(|(_, ranges)| !ranges.is_empty());
    changes
        .map(|(verb, ranges)| format!("the peer {verb} {}", words::list(ranges)))
        .collect()
}
