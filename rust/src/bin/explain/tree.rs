//! The tree over a pack's chunks, by 01's rules.

use crate::known::Known;
use crate::words;
use ppspp::Node;

/// The node of a height whose first chunk is given, if there is one.
fn node(height: u32, first: u32) -> Option<Node> {
    Node::over(first, first + ((1 << height) - 1))
}

/// The root of the least tree with at least n leaves.
pub fn root(n: u32) -> Option<Node> {
    node(n.next_power_of_two().trailing_zeros(), 0)
}

/// The peaks of n chunks, from left to right: one for each one bit of n, the largest first.
pub fn peaks(n: u32) -> Vec<Node> {
    let mut first = 0;
    let heights = (0..u32::BITS).rev().filter(|height| n >> height & 1 == 1);
    heights
        .filter_map(|height| {
            let peak = node(height, first);
            first += 1 << height;
            peak
        })
        .collect()
}

/// The siblings of the nodes over a chunk that are below a height, from the leaf upwards.
pub fn siblings(chunk: u32, height: u32) -> Vec<Node> {
    let each = (0..height).filter_map(|height| node(height, (chunk >> height ^ 1) << height));
    each.collect()
}

/// The nodes whose hashes a chunk of the pack needs, in sending order, by height falling, then by first chunk rising:
/// the peaks, unless all are trusted, and the siblings below the first node over it that is trusted or a peak.
pub fn needed(known: &Known, chunk: u32) -> Vec<Node> {
    let mut needed = peaks(known.n);
    let mut over = (0..u32::BITS).filter_map(|height| node(height, chunk >> height << height));
    let is_end = |node: &Node| known.trusts(*node) || needed.contains(node);
    let end = over.find(is_end);
    if needed.iter().all(|&peak| known.trusts(peak)) {
        needed.clear();
    }
    needed.extend(siblings(chunk, end.map_or(0, Node::height)));
    needed.sort_by_key(|node| (u32::MAX - node.height(), node.first()));
    needed
}

/// The ranges of nodes in one line.
pub fn ranges(nodes: &[Node]) -> String {
    let each = nodes.iter().map(|node| (node.first(), node.last()));
    words::list(&each.collect::<Vec<_>>())
}
