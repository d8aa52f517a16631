//! The proved numbers of the hash tree, through the C functions of
//! `libstore_c.a`.
//!
//! These require nothing: any numbers and rooms get an answer.

unsafe extern "C" {
    safe fn tree_height(node: u64) -> u32;
    safe fn tree_first(node: u32) -> u32;
    safe fn tree_last(node: u32) -> u32;
    safe fn tree_parent(node: u32) -> u64;
    safe fn tree_sibling(node: u32) -> u64;
    safe fn tree_chunk_count(length: u32) -> u32;
    safe fn tree_chunk_size(length: u32, chunk: u32) -> u32;
    safe fn tree_leaf_places(count: u32) -> u64;
    safe fn tree_root_node(count: u32) -> u64;
    fn tree_peaks(room: *mut u64, room_n: usize, count: u32) -> usize;
    fn tree_sent(room: *mut u64, room_n: usize, count: u32, chunk: u32) -> usize;
}

/// The height of a node.
pub fn height(node: u64) -> u32 {
    tree_height(node)
}

/// The first chunk that a node covers.
pub fn first(node: u32) -> u32 {
    tree_first(node)
}

/// The last one.
pub fn last(node: u32) -> u32 {
    tree_last(node)
}

/// A node's parent.
pub fn parent(node: u32) -> u64 {
    tree_parent(node)
}

/// A node's sibling.
pub fn sibling(node: u32) -> u64 {
    tree_sibling(node)
}

/// The number of chunks of a length.
pub fn chunk_count(length: u32) -> u32 {
    tree_chunk_count(length)
}

/// The bytes of a chunk, 0 past the end.
pub fn chunk_size(length: u32, chunk: u32) -> u32 {
    tree_chunk_size(length, chunk)
}

/// The leaf places of the least tree over so many chunks.
pub fn leaf_places(count: u32) -> u64 {
    tree_leaf_places(count)
}

/// Its root.
pub fn root(count: u32) -> u64 {
    tree_root_node(count)
}

/// Writes the peaks of so many chunks, as far as the room goes, and gives how
/// many there are.
pub fn peaks(room: &mut [u64], count: u32) -> usize {
    // SAFETY: the pointer stands for a slice of the length behind it, to which
    // nothing else refers.
    unsafe { tree_peaks(room.as_mut_ptr(), room.len(), count) }
}

/// The same for the nodes that go out with a chunk.
pub fn sent(room: &mut [u64], count: u32, chunk: u32) -> usize {
    // SAFETY: as in `peaks`.
    unsafe { tree_sent(room.as_mut_ptr(), room.len(), count, chunk) }
}
