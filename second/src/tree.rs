//! Bin numbers (RFC 7574, 4.2) and the shape of the tree over a pack's chunks.
//!
//! Chunk i is leaf 2i. A node of height h covers 2^h chunks, and its number
//! has exactly h ones at its low end. The functions of one node take numbers
//! below 2^63 - 1: those of its parent and of its sibling then fit 64 bits.

#[cfg(test)]
mod tests;

/// The bytes of every chunk but the last, which may have fewer.
pub const CHUNK_SIZE: u32 = 1024;

/// The leaf of a chunk.
pub fn leaf(chunk: u32) -> u64 {
    2 * u64::from(chunk)
}

/// The number of ones at the low end.
pub fn height(node: u64) -> u32 {
    node.trailing_ones()
}

/// The first chunk the node covers.
pub fn first_chunk(node: u64) -> u64 {
    (node + 1 - width(node)) / 2
}

/// The last chunk the node covers.
pub fn last_chunk(node: u64) -> u64 {
    first_chunk(node) + (width(node) - 1)
}

/// How many chunks the node covers.
fn width(node: u64) -> u64 {
    1 << height(node)
}

/// Whether the node is the right child of its parent: the bit above the zero
/// that ends its low ones tells.
pub fn is_right(node: u64) -> bool {
    node & (2 << height(node)) != 0
}

/// The other child of the node's parent.
pub fn sibling(node: u64) -> u64 {
    node ^ (2 << height(node))
}

/// The node one higher, halfway between the node and its sibling.
pub fn parent(node: u64) -> u64 {
    (node | (1 << height(node))) & !(2 << height(node))
}

/// The node that covers the chunks `first` to `last`, both included, if one
/// does: their number is a power of two, and `first` a multiple of it.
#[inline]
pub fn node_of_range(first: u32, last: u32) -> Option<u64> {
    if first > last {
        return None;
    }
    let (first, last) = (u64::from(first), u64::from(last));
    let width = last - first + 1;
    (width.is_power_of_two() && first & (width - 1) == 0).then_some(2 * first + (width - 1))
}

/// The number of chunks of a pack of `length` bytes.
pub fn chunk_count(length: u32) -> u32 {
    length.div_ceil(CHUNK_SIZE)
}

/// The bytes of a chunk in a pack of `length` bytes: 0 past the end.
pub fn chunk_size(length: u32, chunk: u32) -> u32 {
    let before = chunk.saturating_mul(CHUNK_SIZE);
    length.saturating_sub(before).min(CHUNK_SIZE)
}

/// The leaves of the least tree with a leaf for each of `count` chunks.
pub fn leaf_places(count: u32) -> u32 {
    count.next_power_of_two()
}

/// The root of that tree.
pub fn root(count: u32) -> u64 {
    u64::from(leaf_places(count)) - 1
}

/// The node of a height, at most 32, that covers a chunk.
pub fn over(chunk: u32, height: u32) -> u64 {
    (u64::from(chunk) >> height << (height + 1)) + ((1 << height) - 1)
}

/// The peaks over `count` chunks, the largest first, in a list.
pub fn peaks(count: u32) -> Vec<u64> {
    each_peak(count).collect()
}

/// The peaks over `count` chunks: one for each one bit, the largest first.
pub fn each_peak(count: u32) -> impl Iterator<Item = u64> {
    let bits = u32::BITS - count.leading_zeros();
    let heights = (0..bits).rev();
    heights.filter_map(move |height| peak_of_height(count, height))
}

/// The peak of a height over `count` chunks, if there is one: its first chunk
/// is the number that the bits above its own one bit make.
pub(crate) fn peak_of_height(count: u32, height: u32) -> Option<u64> {
    let bit = 1 << height;
    (count & bit != 0).then(|| over(count ^ bit, height))
}

/// The height of the peak over a chunk, one of `count`. The highest bit that
/// differs is 1 in the count and 0 in the chunk: the peak is the one of that bit.
pub(crate) fn peak_height(count: u32, chunk: u32) -> u32 {
    (count ^ chunk).ilog2()
}

/// Which of these peaks covers the chunk, which is one of theirs.
pub fn peak_over(peaks: &[u64], chunk: u32) -> usize {
    peaks.partition_point(|&peak| last_chunk(peak) < u64::from(chunk))
}

/// The nodes whose hashes go out with a chunk, in a list.
pub fn sending_order(count: u32, chunk: u32) -> Vec<u64> {
    each_sent(count, chunk).collect()
}

/// The nodes whose hashes go out with a chunk, one of `count`: all peaks, and
/// all siblings on the way from its leaf to its peak. No node is both: such a
/// sibling lies below a peak. Sorted by height falling, then by first chunk
/// rising.
pub fn each_sent(count: u32, chunk: u32) -> impl Iterator<Item = u64> {
    let top = peak_height(count, chunk);
    (0..=count.ilog2()).rev().flat_map(move |height| {
        // Peaks lower than the chunk's own stand right of it.
        let sibling = (height < top).then(|| over(chunk ^ (1 << height), height));
        sibling.into_iter().chain(peak_of_height(count, height))
    })
}
