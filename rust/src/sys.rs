//! The C interface, exactly as `include/ppspp.h` has it: constants, the order, and the functions of
//! `libloader.a`.
//!
//! The rest of the crate stands on it. Whoever calls the functions here must keep the rules of the header: no pointer
//! that a call writes through overlaps any other of that call, none is null, no length is more than the room has.

mod constants;

pub use constants::*;

/// What a store works under. Later versions add fields, as [`Order`](crate::Order) does.
#[allow(non_camel_case_types)]
#[repr(C)]
#[derive(Clone, Copy, Debug, PartialEq, Eq, Hash)]
pub struct ppspp_order {
    /// The root hash.
    pub root: [u8; PPSPP_ROOT_BYTES],
    /// The bytes of the pack.
    pub length: u32,
    /// [`PPSPP_BINS`] or [`PPSPP_RANGES`]; any other number is answered with 12.
    pub addressing: u32,
}

// The parameters are the header's: pointers and lengths of eight rooms stand in one order in every call.
#[allow(clippy::too_many_arguments)]
extern "C" {
    /// The chunks of a pack of this length.
    pub fn ppspp_chunk_count(length: u32) -> u32;
    /// The words of the map of a pack of n chunks.
    pub fn ppspp_map_words(n: u32) -> usize;
    /// The words of the hash room of a pack of n chunks.
    pub fn ppspp_hash_words(n: u32) -> usize;
    /// The words of the bits of trusted nodes of a pack of n chunks.
    pub fn ppspp_trusted_words(n: u32) -> usize;
    /// The words of what peers have, and of what they want, of a pack of n chunks.
    pub fn ppspp_peer_words(n: u32) -> usize;
    /// The version of the library's layout of the state.
    pub fn ppspp_layout_version() -> u32;
    /// The words of the library's state.
    pub fn ppspp_state_words() -> usize;

    /// Starts an empty store under an order. Whatever stood in the rooms before counts for nothing.
    pub fn ppspp_start(
        state: *mut u32,
        state_n: usize,
        chunks: *const u8,
        chunks_n: usize,
        map: *mut u32,
        map_n: usize,
        hashes: *mut u32,
        hashes_n: usize,
        trusted: *mut u32,
        trusted_n: usize,
        has: *mut u32,
        has_n: usize,
        wants: *mut u32,
        wants_n: usize,
        reply: *const u8,
        reply_n: usize,
        order: *const ppspp_order,
    ) -> u32;

    /// Builds a whole store from its content. The order's root is not looked at; the one found is in the state's words
    /// 1 to 8.
    pub fn ppspp_build(
        state: *mut u32,
        state_n: usize,
        chunks: *mut u8,
        chunks_n: usize,
        map: *mut u32,
        map_n: usize,
        hashes: *mut u32,
        hashes_n: usize,
        trusted: *mut u32,
        trusted_n: usize,
        has: *mut u32,
        has_n: usize,
        wants: *mut u32,
        wants_n: usize,
        reply: *const u8,
        reply_n: usize,
        order: *const ppspp_order,
        content: *const u8,
        content_n: usize,
    ) -> u32;

    /// Opens a channel under an ID; the reply is our HANDSHAKE.
    pub fn ppspp_open(
        state: *mut u32,
        state_n: usize,
        chunks: *const u8,
        chunks_n: usize,
        map: *const u32,
        map_n: usize,
        hashes: *const u32,
        hashes_n: usize,
        trusted: *const u32,
        trusted_n: usize,
        has: *mut u32,
        has_n: usize,
        wants: *mut u32,
        wants_n: usize,
        reply: *mut u8,
        reply_n: usize,
        id: u32,
        reply_len: *mut usize,
    ) -> u32;

    /// Takes in a datagram at a clock; the ID is for a channel that the datagram may open. With 9 and 10 `*node` gets a
    /// node's number, else [`PPSPP_NO_NODE`].
    pub fn ppspp_take(
        state: *mut u32,
        state_n: usize,
        chunks: *mut u8,
        chunks_n: usize,
        map: *mut u32,
        map_n: usize,
        hashes: *mut u32,
        hashes_n: usize,
        trusted: *mut u32,
        trusted_n: usize,
        has: *mut u32,
        has_n: usize,
        wants: *mut u32,
        wants_n: usize,
        reply: *mut u8,
        reply_n: usize,
        clock: u64,
        id: u32,
        datagram: *const u8,
        datagram_n: usize,
        reply_len: *mut usize,
        node: *mut u64,
    ) -> u32;

    /// Writes the datagram of one chunk, with all hashes that a new peer needs, for the channel open under an ID.
    pub fn ppspp_write(
        state: *const u32,
        state_n: usize,
        chunks: *const u8,
        chunks_n: usize,
        map: *const u32,
        map_n: usize,
        hashes: *const u32,
        hashes_n: usize,
        trusted: *const u32,
        trusted_n: usize,
        has: *const u32,
        has_n: usize,
        wants: *const u32,
        wants_n: usize,
        reply: *mut u8,
        reply_n: usize,
        id: u32,
        chunk: u32,
        clock: u64,
        reply_len: *mut usize,
    ) -> u32;

    /// How many chunks are held, and 1 where that is all of them, else 0; after a refusal both are 0.
    pub fn ppspp_ask(
        state: *const u32,
        state_n: usize,
        map: *const u32,
        map_n: usize,
        held: *mut u32,
        whole: *mut u32,
    ) -> u32;

    /// Begins a datagram in the reply room: its destination is the peer's channel.
    pub fn ppspp_begin(
        reply: *mut u8,
        reply_n: usize,
        destination: u32,
        reply_len: *mut usize,
    ) -> u32;

    /// Adds a message to the datagram in the first `len` bytes of the reply room, under an addressing; `*reply_len`
    /// gets its new length. DATA has one chunk: its first and last are the same, or it is refused.
    pub fn ppspp_add(
        reply: *mut u8,
        reply_n: usize,
        addressing: u32,
        len: usize,
        kind: u32,
        first: u32,
        last: u32,
        number: u64,
        bytes: *const u8,
        bytes_n: usize,
        reply_len: *mut usize,
    ) -> u32;

    /// What stands at a place of a datagram, under an addressing; messages begin at place 4. It is read alone, as if
    /// one began there, and nothing else is checked: all places are alike, 0 to 3 and those of a datagram under 4 bytes
    /// too. Of a message, `found` gets [`PPSPP_FOUND_WORDS`] words; without one it stays as it was.
    pub fn ppspp_read(
        datagram: *const u8,
        datagram_n: usize,
        addressing: u32,
        at: usize,
        found: *mut u64,
    ) -> u32;
}
