//! The calls with the library's own numbers, on slices of any length: for tests, and for loaders that keep numbers.
//! [`Store`](crate::Store), [`Composer`](crate::Composer) and [`messages`](crate::messages()) are made of them.
//!
//! Each call gives back a number of the header's `enum ppspp_answer`, and any numbers and bytes get one.
//!
//! ```
//! use ppspp::{calls, sys, Lend, Order, OwnedRooms};
//! let mut rooms = OwnedRooms::for_length(1_500);
//! assert_eq!(calls::build(rooms.lend(), &Order::to_build(1_500), &[7; 1_500]), 0);
//! assert_eq!(calls::open(rooms.lend(), 17), (0, 60));
//! assert_eq!(calls::open(rooms.lend(), 17), (14, 0));
//! assert_eq!(calls::take(rooms.lend(), 0, 0, b"any"), (1, 0, sys::PPSPP_NO_NODE));
//! assert_eq!(calls::ask(rooms.view().state, rooms.view().map), (0, 2, 1));
//! ```

// The only unsafe code of this crate. Each call hands over pointers and lengths of slices. A slice's pointer is never null
// and is aligned, its length is what it has; mutable slices overlap nothing; and the library keeps no pointer. So the
// header's rules hold, whatever the slices contain.

pub use crate::numbers::Numbers;

use crate::order::Order;
use crate::rooms::Rooms;
use crate::sys;

/// A number given back, and the length of the reply or of the datagram so far, 0 after a refusal.
pub type Answered = (u32, usize);

/// The same of taking in, and the number of the node that 9 or 10 names; with any other number
/// [`PPSPP_NO_NODE`](sys::PPSPP_NO_NODE).
pub type Taken = (u32, usize, u64);

/// What stands where a call is to write a length, until it does. No reply is so long: a call that wrote none would show.
const NO_LENGTH: usize = usize::MAX;

/// The same for a node. No tree has it, and it is not [`PPSPP_NO_NODE`](sys::PPSPP_NO_NODE).
const NOT_WRITTEN: u64 = u64::MAX - 1;

/// The chunks of a pack of a length.
pub(crate) fn chunk_count(length: u32) -> u32 {
    // SAFETY: it takes and gives a number.
    unsafe { sys::ppspp_chunk_count(length) }
}

/// The words of the map, of the hashes, of the trusted bits, and of what peers have, for n chunks.
pub(crate) fn words(n: u32) -> [usize; 4] {
    // SAFETY: they take and give numbers.
    unsafe {
        [
            sys::ppspp_map_words(n),
            sys::ppspp_hash_words(n),
            sys::ppspp_trusted_words(n),
            sys::ppspp_peer_words(n),
        ]
    }
}

/// The library's layout version and words of a state.
pub(crate) fn layout() -> (u32, usize) {
    // SAFETY: they give numbers.
    unsafe { (sys::ppspp_layout_version(), sys::ppspp_state_words()) }
}

/// Hands the eight rooms and further arguments to a function of the library.
macro_rules! on_rooms {
    ($call:ident, $rooms:ident, $($more:expr),*) => {
        // SAFETY: the rooms and what else is lent are slices or places of this crate, so they are valid for their
        // lengths during the call, and the mutable ones overlap nothing.
        unsafe {
            sys::$call(
                $rooms.state.as_mut_ptr(),
                $rooms.state.len(),
                $rooms.chunks.as_mut_ptr(),
                $rooms.chunks.len(),
                $rooms.map.as_mut_ptr(),
                $rooms.map.len(),
                $rooms.hashes.as_mut_ptr(),
                $rooms.hashes.len(),
                $rooms.trusted.as_mut_ptr(),
                $rooms.trusted.len(),
                $rooms.has.as_mut_ptr(),
                $rooms.has.len(),
                $rooms.wants.as_mut_ptr(),
                $rooms.wants.len(),
                $rooms.reply.as_mut_ptr(),
                $rooms.reply.len(),
                $($more),*
            )
        }
    };
}

/// Starts an empty store under an order.
pub fn start(rooms: Rooms<'_>, order: &Order) -> u32 {
    let order = sys::ppspp_order::from(*order);
    on_rooms!(ppspp_start, rooms, &order)
}

/// Builds a whole store from its content. The order's root is not looked at; the one found is in the state.
pub fn build(rooms: Rooms<'_>, order: &Order, content: &[u8]) -> u32 {
    let order = sys::ppspp_order::from(*order);
    on_rooms!(ppspp_build, rooms, &order, content.as_ptr(), content.len())
}

/// Opens a channel under an ID; the reply is our HANDSHAKE.
pub fn open(rooms: Rooms<'_>, id: u32) -> Answered {
    let mut len = NO_LENGTH;
    (on_rooms!(ppspp_open, rooms, id, &mut len), len)
}

/// Takes in a datagram at a clock in microseconds; the ID is for a channel that it may open.
pub fn take(rooms: Rooms<'_>, clock: u64, id: u32, datagram: &[u8]) -> Taken {
    let (mut len, mut node) = (NO_LENGTH, NOT_WRITTEN);
    let (bytes, count) = (datagram.as_ptr(), datagram.len());
    let number = on_rooms!(ppspp_take, rooms, clock, id, bytes, count, &mut len, &mut node);
    (number, len, node)
}

/// Writes the datagram of a chunk, with its hashes, for the channel open under an ID; the clock is its timestamp.
pub fn write(rooms: Rooms<'_>, id: u32, chunk: u32, clock: u64) -> Answered {
    let mut len = NO_LENGTH;
    let number = on_rooms!(ppspp_write, rooms, id, chunk, clock, &mut len);
    (number, len)
}

/// The number given back, how many chunks are held, and 1 where that is all, else 0; after a refusal both are 0.
pub fn ask(state: &[u32], map: &[u32]) -> (u32, u32, u32) {
    // As with lengths: no count is so high, and no flag.
    let (mut held, mut whole) = (u32::MAX, u32::MAX);
    // SAFETY: slices, valid for their lengths, and two places of this function.
    let number = unsafe {
        sys::ppspp_ask(
            state.as_ptr(),
            state.len(),
            map.as_ptr(),
            map.len(),
            &mut held,
            &mut whole,
        )
    };
    (number, held, whole)
}

/// Begins a datagram in a room; its destination is the peer's channel.
pub fn begin(room: &mut [u8], destination: u32) -> Answered {
    let mut len = NO_LENGTH;
    // SAFETY: a slice, valid for its length, and a place of this function.
    let number = unsafe { sys::ppspp_begin(room.as_mut_ptr(), room.len(), destination, &mut len) };
    (number, len)
}

/// Adds a message to the datagram in the first `so_far` bytes of a room, under the addressing of a number.
pub fn add(room: &mut [u8], addressing: u32, so_far: usize, message: Numbers<'_>) -> Answered {
    let mut len = NO_LENGTH;
    // SAFETY: two slices, valid for their lengths, the mutable one overlaps nothing, and a place of this function.
    let number = unsafe {
        sys::ppspp_add(
            room.as_mut_ptr(),
            room.len(),
            addressing,
            so_far,
            message.kind,
            message.first,
            message.last,
            message.number,
            message.bytes.as_ptr(),
            message.bytes.len(),
            &mut len,
        )
    };
    (number, len)
}

/// What stands at a place of a datagram under the addressing of a number, itself a number of the header's
/// `enum ppspp_step`. Any place is read as if a message began there, the first four too. Of a message, `found` gets the
/// words; else it stays as it is.
pub fn read(
    datagram: &[u8],
    addressing: u32,
    at: usize,
    found: &mut [u64; sys::PPSPP_FOUND_WORDS],
) -> u32 {
    let (bytes, count) = (datagram.as_ptr(), datagram.len());
    // SAFETY: a slice, valid for its length, and an array of as many words as the library writes.
    unsafe { sys::ppspp_read(bytes, count, addressing, at, found.as_mut_ptr()) }
}
