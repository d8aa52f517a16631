//! The proved chunk store, through the C functions of `libstore_c.a`.
//!
//! These require nothing: any rooms, numbers and bytes get an answer.

use crate::naming::{self, Answer};

/// What stands where a node is to be written, until it is. No tree has it, and it
/// is not what stands for none.
const NOT_WRITTEN: u64 = u64::MAX - 1;

/// The rooms of a store, each of any length and with anything in it.
#[derive(Clone)]
pub struct Rooms {
    /// The pack's bytes.
    pub chunks: Vec<u8>,
    /// A bit for each chunk, low bit first: whether it is held.
    pub map: Vec<u32>,
    /// Eight words for each node, by its number.
    pub hashes: Vec<u32>,
    /// A bit for each node, low bit first: whether its hash is trusted.
    pub trusted: Vec<u32>,
}

/// What a store works under.
#[derive(Clone, Copy)]
pub struct Order<'a> {
    /// Eight words, or the call is refused.
    pub root: &'a [u32],
    pub length: u32,
}

unsafe extern "C" {
    fn store_start(
        root: *const u32,
        root_n: usize,
        length: u32,
        chunks: *const u8,
        chunks_n: usize,
        map: *mut u32,
        map_n: usize,
        hashes: *mut u32,
        hashes_n: usize,
        trusted: *mut u32,
        trusted_n: usize,
    ) -> u32;

    fn store_build(
        root: *mut u32,
        root_n: usize,
        length: u32,
        chunks: *mut u8,
        chunks_n: usize,
        map: *mut u32,
        map_n: usize,
        hashes: *mut u32,
        hashes_n: usize,
        trusted: *mut u32,
        trusted_n: usize,
        content: *const u8,
        content_n: usize,
    ) -> u32;

    fn store_take(
        root: *const u32,
        root_n: usize,
        length: u32,
        chunks: *mut u8,
        chunks_n: usize,
        map: *mut u32,
        map_n: usize,
        hashes: *mut u32,
        hashes_n: usize,
        trusted: *mut u32,
        trusted_n: usize,
        c: u32,
        chunk: *const u8,
        chunk_n: usize,
        entries: *const u64,
        entries_n: usize,
        bytes: *const u8,
        bytes_n: usize,
        node: *mut u64,
    ) -> u32;
}

/// Starts a store under an order.
pub fn start(order: Order, rooms: &mut Rooms) -> u32 {
    // SAFETY: each pointer stands for a slice of the length behind it, and
    // nothing else refers to those that are written.
    unsafe {
        store_start(
            order.root.as_ptr(),
            order.root.len(),
            order.length,
            rooms.chunks.as_ptr(),
            rooms.chunks.len(),
            rooms.map.as_mut_ptr(),
            rooms.map.len(),
            rooms.hashes.as_mut_ptr(),
            rooms.hashes.len(),
            rooms.trusted.as_mut_ptr(),
            rooms.trusted.len(),
        )
    }
}

/// Builds a whole store of a length from its content, and writes its root to
/// `root`, which has eight words, or the call is refused.
pub fn build(root: &mut [u32], length: u32, rooms: &mut Rooms, content: &[u8]) -> u32 {
    // SAFETY: as in `start`.
    unsafe {
        store_build(
            root.as_mut_ptr(),
            root.len(),
            length,
            rooms.chunks.as_mut_ptr(),
            rooms.chunks.len(),
            rooms.map.as_mut_ptr(),
            rooms.map.len(),
            rooms.hashes.as_mut_ptr(),
            rooms.hashes.len(),
            rooms.trusted.as_mut_ptr(),
            rooms.trusted.len(),
            content.as_ptr(),
            content.len(),
        )
    }
}

/// Takes a chunk with the hashes that came: `entries` has two words for each,
/// its node and its place in `hashes`.
pub fn take(
    order: Order,
    rooms: &mut Rooms,
    number: u32,
    chunk: &[u8],
    entries: &[u64],
    hashes: &[u8],
) -> Answer {
    let mut node = NOT_WRITTEN;
    // SAFETY: as in `start`, and a place of this function.
    let number = unsafe {
        store_take(
            order.root.as_ptr(),
            order.root.len(),
            order.length,
            rooms.chunks.as_mut_ptr(),
            rooms.chunks.len(),
            rooms.map.as_mut_ptr(),
            rooms.map.len(),
            rooms.hashes.as_mut_ptr(),
            rooms.hashes.len(),
            rooms.trusted.as_mut_ptr(),
            rooms.trusted.len(),
            number,
            chunk.as_ptr(),
            chunk.len(),
            entries.as_ptr(),
            entries.len(),
            hashes.as_ptr(),
            hashes.len(),
            &mut node,
        )
    };
    (number, naming::written(node))
}
