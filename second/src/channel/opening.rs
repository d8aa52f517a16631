//! Opening a channel, from our side or from the peer's.

use super::{Phase, Rooms, Row, Sizes, State};
use crate::answer;
use crate::wire::{address, append, Message, Names, Options};

/// "Open a channel (a calling row, the lowest free, both bit rows cleared; the
/// reply is our HANDSHAKE to channel 0)."
pub fn open<N: Names>(state: &mut State, rooms: &mut Rooms, id: u32) -> Result<usize, u8> {
    let sizes = state.check(rooms)?;
    let row = Row {
        phase: Phase::Calling,
        id,
        ..Row::default()
    };
    occupy::<N>(state, rooms, &sizes, row)
}

/// Writes the record of a new channel in the lowest free row, clears its bit
/// rows, and replies with our HANDSHAKE to the peer. Refused with 14, then 6.
pub fn occupy<N: Names>(
    state: &mut State,
    rooms: &mut Rooms,
    sizes: &Sizes,
    row: Row,
) -> Result<usize, u8> {
    if row.id == 0 || state.find(row.id).is_some() {
        return Err(answer::BAD_ID);
    }
    let index = state.lowest_free().ok_or(answer::TABLE_FULL)?;
    state.rows[index] = row;
    for bits in rooms.channel_rows(index, sizes) {
        bits.fill(0);
    }
    let handshake = Message::Handshake {
        source: row.id,
        options: Options::Fixed { root: 0 },
    };
    let length = address(rooms.reply, row.peer);
    Ok(append::<N>(rooms.reply, length, &handshake, &state.root))
}
