//! A pack, and stores that take or have it.

use super::*;
use crate::store::plain::hash;

/// A pack.
pub struct Pack {
    pub content: Vec<u8>,
}

impl Pack {
    /// Without a short period.
    pub fn new(length: u32) -> Self {
        let byte = |i| ((i * 131 + i / 251) % 253) as u8;
        Pack {
            content: (0..length).map(byte).collect(),
        }
    }

    pub fn length(&self) -> u32 {
        self.content.len() as u32
    }

    pub fn root(&self) -> Digest {
        self.hash(tree::root(tree::chunk_count(self.length())))
    }

    /// The right hash of a node.
    pub fn hash(&self, node: u64) -> Digest {
        hash(&self.content, node)
    }

    pub fn chunk(&self, number: u32) -> &[u8] {
        self.content.chunks(1024).nth(number as usize).unwrap()
    }

    /// A chunk with one bit changed.
    pub fn damaged(&self, number: u32) -> Vec<u8> {
        let mut bytes = self.chunk(number).to_vec();
        bytes[0] ^= 1;
        bytes
    }

    /// The INTEGRITY messages of these nodes with their right hashes, under ranges.
    pub fn hashes(&self, nodes: &[u64]) -> Vec<u8> {
        self.hashes_under(Addressing::Ranges, nodes)
    }

    pub fn hashes_under(&self, addressing: Addressing, nodes: &[u64]) -> Vec<u8> {
        let message = |&node| either::integrity(addressing, node, &self.hash(node));
        nodes.iter().flat_map(message).collect()
    }

    /// DATA with a right chunk and the time 0, under ranges.
    pub fn data(&self, number: u32) -> Vec<u8> {
        self.data_under(Addressing::Ranges, number)
    }

    pub fn data_under(&self, addressing: Addressing, number: u32) -> Vec<u8> {
        either::data(addressing, tree::leaf(number), 0, self.chunk(number))
    }

    /// A store started under the root and ranges, with channel 5 open to the
    /// peer's 9.
    pub fn started(&self) -> Caller {
        self.started_under(Addressing::Ranges)
    }

    pub fn started_under(&self, addressing: Addressing) -> Caller {
        let mut caller = Caller::new(self.length());
        let method = addressing.number();
        assert_eq!(caller.start_under(method, &self.root(), self.length()), 0);
        caller.opened_by_peer(5, 9);
        caller
    }

    /// The same, built.
    pub fn built(&self) -> Caller {
        self.built_under(Addressing::Ranges)
    }

    pub fn built_under(&self, addressing: Addressing) -> Caller {
        let mut caller = Caller::new(self.length());
        let method = addressing.number();
        assert_eq!(caller.build_under(method, self.length(), &self.content), 0);
        caller.opened_by_peer(5, 9);
        caller
    }
}
