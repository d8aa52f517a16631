//! The channel table, read from a state's words.

use crate::sys;

/// A channel: a row of the table that is in use.
#[derive(Clone, Copy, Debug, PartialEq, Eq, Hash)]
pub struct Channel {
    /// Its row, 0 to 15.
    pub row: u32,
    /// The ID that we gave it: the destination of what the peer sends.
    pub id: u32,
    /// The peer's channel: the destination of what we send. 0 while we are calling.
    pub peer: u32,
    /// Whether it is open.
    pub phase: Phase,
    /// Whether the peer has choked us.
    pub choked: bool,
}

/// The phase of a channel.
#[derive(Clone, Copy, Debug, PartialEq, Eq, Hash)]
pub enum Phase {
    /// We have sent a HANDSHAKE and wait for the peer's.
    Calling,
    /// The channel is open.
    Open,
}

/// The channel in a row of a state's words, unless the row is free.
pub(crate) fn channel(state: &[u32], row: u32) -> Option<Channel> {
    let at = sys::PPSPP_WORD_ROWS + sys::PPSPP_ROW_WORDS * row as usize;
    let words = state.get(at..at + sys::PPSPP_ROW_WORDS)?;
    let phase = match words[sys::PPSPP_ROW_PHASE] {
        sys::PPSPP_CALLING => Phase::Calling,
        sys::PPSPP_OPEN => Phase::Open,
        _ => return None,
    };
    Some(Channel {
        row,
        id: words[sys::PPSPP_ROW_ID],
        peer: words[sys::PPSPP_ROW_PEER],
        phase,
        choked: words[sys::PPSPP_ROW_CHOKED] == 1,
    })
}
