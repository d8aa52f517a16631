//! Why a chunk is refused: the numbers 9 and 10. The library names the node; what is said besides follows from it, from
//! the hashes that came, and from what was trusted before.

use crate::known::Known;
use crate::{tree, words};
use ppspp::{Message, Node};

/// DATA with the hashes that came before it.
pub struct Proof<'a> {
    known: &'a Known,
    chunk: u32,
    /// The nodes whose hashes came.
    came: Vec<Node>,
}

impl<'a> Proof<'a> {
    /// That of a datagram's messages, which are sound, if DATA is among them.
    pub fn of(known: &'a Known, messages: impl Iterator<Item = Message<'a>>) -> Option<Proof<'a>> {
        let mut came = Vec::new();
        let mut chunk = None;
        for message in messages {
            match message {
                Message::Integrity { first, last, .. } => came.extend(Node::over(first, last)),
                Message::Data { first, .. } => chunk = Some(first),
                _ => {}
            }
        }
        let chunk = chunk?;
        Some(Proof { known, chunk, came })
    }

    /// Why it is refused with 9 and a node.
    pub fn incomplete(&self, node: Node) -> String {
        let (chunk, first) = (self.chunk, words::node(node));
        let mut text = format!("chunk {chunk} refused: the hash of {first} is missing");
        let mut others = tree::needed(self.known, chunk);
        others.retain(|other| *other != node && !self.came.contains(other));
        if !others.is_empty() {
            text += &format!("; missing besides: {}", tree::ranges(&others));
        }
        text
    }

    /// Why it is refused with 10 and a node.
    pub fn wrong(&self, node: Node) -> String {
        let peaks = tree::peaks(self.known.n);
        let is_root = Some(node) == tree::root(self.known.n);
        // The climb ends at a peak at the latest, so it misses the root only where that is one.
        if is_root && !peaks.contains(&node) {
            let (peaks, number) = (tree::ranges(&peaks), node.number());
            return format!("the peaks that came, {peaks}, do not give the root (node {number})");
        }
        let (chunk, with, missed) = (self.chunk, self.siblings(node), words::node(node));
        let target = if is_root {
            format!("the root, over {missed}")
        } else if self.known.trusts(node) {
            format!("the trusted hash of {missed}")
        } else {
            format!("the hash of the peak over {missed}, which came with it and leads to the root")
        };
        // Its own hash is trusted then, and no other is looked at.
        let held = if self.known.holds(chunk) {
            "; it is held, with other bytes"
        } else {
            ""
        };
        format!("chunk {chunk}{with} does not give {target}{held}")
    }

    /// The hashes that came for the climb to a node, in words.
    fn siblings(&self, node: Node) -> String {
        match &tree::siblings(self.chunk, node.height())[..] {
            [] => String::new(),
            [one] => {
                let chunks = words::chunks(one.first(), one.last());
                format!(" with the hash of {chunks}")
            }
            several => format!(" with the hashes of {}", tree::ranges(several)),
        }
    }
}
