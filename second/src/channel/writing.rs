//! Writing the datagram for one chunk.

use super::rooms::{bit, hash_at};
use super::{Rooms, State};
use crate::answer;
use crate::tree::{self, CHUNK_SIZE};
use crate::wire::{address, append, Message, Names};

/// "All peaks and all siblings below its peak, each node once, sorted by height
/// falling, then by first chunk rising, then DATA with the given clock."
pub fn write<N: Names>(
    state: &State,
    rooms: &mut Rooms,
    id: u32,
    chunk: u32,
    clock: u64,
) -> Result<usize, u8> {
    state.check(rooms)?;
    let row = &state.rows[state.lowest_open(id).ok_or(answer::MISPLACED)?];
    let count = tree::chunk_count(state.length);
    if chunk >= count {
        return Err(answer::PAST_THE_END);
    }
    if !bit(rooms.map, chunk as usize) {
        return Err(answer::NOT_HELD);
    }
    let length = address(rooms.reply, row.peer);
    let length = tree::each_sent(count, chunk).fold(length, |length, node| {
        // The nodes of a tree over 512 chunks have small numbers.
        let integrity = Message::Integrity {
            first: tree::first_chunk(node) as u32,
            last: tree::last_chunk(node) as u32,
            hash: 0,
        };
        let hash = hash_at(rooms.hashes, node);
        append::<N>(rooms.reply, length, &integrity, &hash)
    });
    let start = (chunk * CHUNK_SIZE) as usize;
    let len = tree::chunk_size(state.length, chunk) as usize;
    let data = Message::Data {
        first: chunk,
        last: chunk,
        time: clock,
        start,
        len,
    };
    let bytes = &rooms.chunks[start..start + len];
    Ok(append::<N>(rooms.reply, length, &data, bytes))
}
