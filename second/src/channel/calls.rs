//! The entry points.

use super::rooms::count_first;
use super::{opening, starting, taking, writing, Held, Outcome, Rooms, Sizes, State};
use crate::answer;
use crate::sha256::Digest;
use crate::store::check_length;
use crate::tree;
use crate::wire::{self, Addressing, ByBins, ByRanges, Message};

/// Starts a store under an order, whatever the state was: its root, its length
/// and the number of its addressing method. Refused with 12 or 11; the state then
/// stays the old one.
pub fn start(
    state: &mut State,
    rooms: &mut Rooms,
    root: &Digest,
    length: u32,
    method: u32,
) -> Outcome {
    starting::start(state, rooms, root, length, method).into()
}

/// Builds a whole store from content, which has this length, under an addressing
/// method; its root is found. Refused with 12 or 11; the state then stays the old
/// one.
pub fn build(
    state: &mut State,
    rooms: &mut Rooms,
    length: u32,
    method: u32,
    content: &[u8],
) -> Outcome {
    starting::build(state, rooms, length, method, content).into()
}

/// Opens a channel under an ID; the reply is our HANDSHAKE to channel 0. Refused
/// with 12, 11, 14 or 6.
pub fn open(state: &mut State, rooms: &mut Rooms, id: u32) -> Outcome {
    let done = match state.addressing {
        Addressing::Bins => opening::open::<ByBins>(state, rooms, id),
        Addressing::Ranges => opening::open::<ByRanges>(state, rooms, id),
    };
    done.into()
}

/// Begins a datagram in the reply room; its length is that of the destination,
/// 4. Refused with 11.
pub fn begin(reply: &mut [u8], destination: u32) -> Outcome {
    wire::begin(reply, destination).into()
}

/// Adds a message to the datagram in the first `length` bytes of the reply room,
/// and gives its new length; both are under an addressing method. The bytes of a
/// hash, chunk or root are taken from `source`. Refused with 12 for the method's
/// number, then with 11, 1, 2 or 3 as `wire::add` says.
pub fn add(
    reply: &mut [u8],
    method: u32,
    length: usize,
    message: &Message,
    source: &[u8],
) -> Outcome {
    let added = Addressing::of(method)
        .ok_or(answer::BAD_METHOD)
        .and_then(|addressing| wire::add(reply, addressing, length, message, source));
    added.into()
}

/// Takes in a datagram at a clock; `id` is for a channel that it may open. The
/// reply is our HANDSHAKE for a channel that it opened, an ACK for a chunk that
/// it brought, or none. Refused with any number but 13; 9 and 10 name a node.
#[inline]
pub fn take(state: &mut State, rooms: &mut Rooms, clock: u64, id: u32, datagram: &[u8]) -> Outcome {
    let taken = match state.addressing {
        Addressing::Bins => taking::take::<ByBins>(state, rooms, clock, id, datagram),
        Addressing::Ranges => taking::take::<ByRanges>(state, rooms, clock, id, datagram),
    };
    taken.into()
}

/// Writes the datagram for one chunk at a clock, to the peer of the lowest row
/// that is open under an ID. Refused with 12, 11, 3, 7 or 13.
pub fn write(state: &State, rooms: &mut Rooms, id: u32, chunk: u32, clock: u64) -> Outcome {
    let written = match state.addressing {
        Addressing::Bins => writing::write::<ByBins>(state, rooms, id, chunk, clock),
        Addressing::Ranges => writing::write::<ByRanges>(state, rooms, id, chunk, clock),
    };
    written.into()
}

/// Asks how many chunks are held, and whether all are. Refused with 12, or with
/// 11 for the map, the one room that is looked at.
pub fn ask(state: &State, map: &[u32]) -> Held {
    match held(state, map) {
        Ok(count) => Held {
            number: answer::DONE,
            count,
            whole: count == tree::chunk_count(state.length),
        },
        Err(number) => Held {
            number,
            count: 0,
            whole: false,
        },
    }
}

/// The chunks in the map: of the bits of its last word, only those of chunks
/// count.
fn held(state: &State, map: &[u32]) -> Result<u32, u8> {
    check_length(state.length)?;
    if map.len() < Sizes::of(state.length).map {
        return Err(answer::ROOM_TOO_SMALL);
    }
    Ok(count_first(map, tree::chunk_count(state.length)))
}
