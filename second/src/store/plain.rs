//! The tree over a pack's content, for the tests, as 01 writes it down: from
//! the root to the leaves, every hash worked out anew.

use crate::sha256::{sha256, Digest};
use crate::tree;

/// The hash of a node.
pub fn hash(content: &[u8], node: u64) -> Digest {
    let first = tree::first_chunk(node) as usize;
    over(content, first, 1 << tree::height(node)).unwrap_or([0; 32])
}

/// The hash over `width` leaves from `first` on; none if all are fillers.
fn over(content: &[u8], first: usize, width: usize) -> Option<Digest> {
    if width == 1 {
        return content.chunks(1024).nth(first).map(sha256);
    }
    let half = width / 2;
    match [
        over(content, first, half),
        over(content, first + half, half),
    ] {
        [None, None] => None,
        children => {
            let [left, right] = children.map(|child| child.unwrap_or([0; 32]));
            Some(sha256(&[left, right].concat()))
        }
    }
}
