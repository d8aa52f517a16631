//! The constants of the header.

/// Bytes of a chunk; the last one has 1 to 1,024.
pub const PPSPP_CHUNK_SIZE: u32 = 1024;
/// Bytes of a pack, at most.
pub const PPSPP_MAX_LENGTH: u32 = 524_288;
/// Chunks of a pack, at most.
pub const PPSPP_MAX_CHUNKS: u32 = 512;
/// Rows of the channel table.
pub const PPSPP_CHANNELS: u32 = 16;
/// Bytes of a root hash.
pub const PPSPP_ROOT_BYTES: usize = 32;
/// Bytes of a datagram, at least.
pub const PPSPP_MIN_DATAGRAM: usize = 4;
/// Bytes of a datagram, at most.
pub const PPSPP_MAX_DATAGRAM: usize = 2048;
/// Words of the state room.
pub const PPSPP_STATE_WORDS: usize = 75;
/// Bytes of the reply room.
pub const PPSPP_REPLY_BYTES: usize = PPSPP_MAX_DATAGRAM;

/// Addressing: chunks are named by one 32-bit bin, the number of the node over them.
pub const PPSPP_BINS: u32 = 0;
/// Addressing: chunks are named by the first and the last of them, 32 bits each.
pub const PPSPP_RANGES: u32 = 2;

/// The version of the state's layout that these constants describe.
pub const PPSPP_LAYOUT_VERSION: u32 = 2;
/// The state's word with the layout's version.
pub const PPSPP_WORD_VERSION: usize = 0;
/// The first of the state's eight words with the root.
pub const PPSPP_WORD_ROOT: usize = 1;
/// The state's word with the length.
pub const PPSPP_WORD_LENGTH: usize = 9;
/// The state's word with the addressing.
pub const PPSPP_WORD_ADDRESSING: usize = 10;
/// The first of the state's words with the rows of the channel table.
pub const PPSPP_WORD_ROWS: usize = 11;
/// Words of a row.
pub const PPSPP_ROW_WORDS: usize = 4;
/// The row's word with its phase.
pub const PPSPP_ROW_PHASE: usize = 0;
/// The row's word with our channel's ID.
pub const PPSPP_ROW_ID: usize = 1;
/// The row's word with the peer's channel.
pub const PPSPP_ROW_PEER: usize = 2;
/// The row's word that is 1 where the peer has choked us.
pub const PPSPP_ROW_CHOKED: usize = 3;

/// Phase: the row is free; any number but 1 and 2 is read so.
pub const PPSPP_FREE: u32 = 0;
/// Phase: we have sent a HANDSHAKE and wait for the peer's.
pub const PPSPP_CALLING: u32 = 1;
/// Phase: the channel is open.
pub const PPSPP_OPEN: u32 = 2;

/// Answer: done. The others are the numbers of [`Refusal`](crate::Refusal).
pub const PPSPP_DONE: u32 = 0;

/// In place of a node's number: the answer names none.
pub const PPSPP_NO_NODE: u64 = u64::MAX;

/// Type of a HANDSHAKE.
pub const PPSPP_HANDSHAKE: u32 = 0;
/// Type of DATA.
pub const PPSPP_DATA: u32 = 1;
/// Type of an ACK.
pub const PPSPP_ACK: u32 = 2;
/// Type of a HAVE.
pub const PPSPP_HAVE: u32 = 3;
/// Type of an INTEGRITY.
pub const PPSPP_INTEGRITY: u32 = 4;
/// Type of a REQUEST.
pub const PPSPP_REQUEST: u32 = 8;
/// Type of a CANCEL.
pub const PPSPP_CANCEL: u32 = 9;
/// Type of a CHOKE.
pub const PPSPP_CHOKE: u32 = 10;
/// Type of an UNCHOKE.
pub const PPSPP_UNCHOKE: u32 = 11;
/// Type of a HAVE over no chunk, under bins: 256 and the type.
pub const PPSPP_EMPTY_HAVE: u32 = 259;
/// Type of a REQUEST over no chunk.
pub const PPSPP_EMPTY_REQUEST: u32 = 264;
/// Type of a CANCEL over no chunk.
pub const PPSPP_EMPTY_CANCEL: u32 = 265;

/// Options: End alone, as a closing HANDSHAKE has.
pub const PPSPP_OPTIONS_END: u32 = 0;
/// Options: those of the yard profile under the addressing, around a root.
pub const PPSPP_OPTIONS_FIXED: u32 = 1;
/// Options: others; they are read, and never written.
pub const PPSPP_OPTIONS_OTHER: u32 = 2;

/// At a place of a datagram: its end; the place is at or past it.
pub const PPSPP_STEP_END: u32 = 0;
/// At a place of a datagram: a message.
pub const PPSPP_STEP_MESSAGE: u32 = 1;
/// At a place of a datagram: what is refused with 2.
pub const PPSPP_STEP_REFUSED: u32 = 2;
/// Instead of what stands at a place: there is no such addressing.
pub const PPSPP_STEP_NO_METHOD: u32 = 12;

/// Words that [`ppspp_read`](super::ppspp_read) gives of a message.
pub const PPSPP_FOUND_WORDS: usize = 7;
/// The word of the type.
pub const PPSPP_FOUND_TYPE: usize = 0;
/// The word of the first chunk, or of a HANDSHAKE's source.
pub const PPSPP_FOUND_FIRST: usize = 1;
/// The word of the last chunk, or of a HANDSHAKE's options.
pub const PPSPP_FOUND_LAST: usize = 2;
/// The word of the timestamp or delay.
pub const PPSPP_FOUND_NUMBER: usize = 3;
/// The word of the place of its first byte.
pub const PPSPP_FOUND_BYTES: usize = 4;
/// The word of the count of its bytes.
pub const PPSPP_FOUND_BYTES_N: usize = 5;
/// The word of the place behind the message.
pub const PPSPP_FOUND_NEXT: usize = 6;
