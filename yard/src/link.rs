//! What a loader knows of a channel beside the row that the store has for it.

use crate::bits;
use crate::timing::CALL_AGAIN;
use std::collections::BTreeMap;

/// A channel and the address behind it.
#[derive(Clone, Debug)]
pub struct Link {
    /// Our channel's ID.
    pub id: u32,
    /// The peer's address.
    pub address: usize,
    /// The peer's channel, 0 until our call is answered.
    pub peer: u32,
    /// Whether we called.
    pub called: bool,
    /// When the call began, and once it was answered, when that was.
    pub since: u64,
    /// How often our HANDSHAKE was sent without an answer.
    pub calls: u32,
    /// When it is to be sent again.
    pub call_again: u64,
    /// When something came on the open channel.
    pub heard: Option<u64>,
    /// When it last brought a chunk.
    pub brought: Option<u64>,
    /// When it last asked for a chunk.
    pub asked: Option<u64>,
    /// Since when it is choked.
    pub choked: Option<u64>,
    /// The chunks that the peer was told of.
    pub announced: Vec<u32>,
    /// When the peer is to be told of all chunks.
    pub announce_all: u64,
    /// When each wanted chunk was sent.
    pub sent: BTreeMap<u32, u64>,
}

/// A channel that is closed on our side.
#[derive(Clone, Copy, Debug)]
pub struct Former {
    /// What was our channel's ID.
    pub id: u32,
    /// The peer's channel.
    pub peer: u32,
    /// The peer's address.
    pub address: usize,
    /// How often the peer was told so since.
    pub told: u32,
}

impl Link {
    /// A new channel, with rows of so many words.
    pub fn new(id: u32, address: usize, called: bool, now: u64, words: usize) -> Link {
        Link {
            id,
            address,
            peer: 0,
            called,
            since: now,
            calls: u32::from(called),
            call_again: now + CALL_AGAIN,
            heard: None,
            brought: None,
            asked: None,
            choked: None,
            announced: vec![0; words],
            announce_all: now,
            sent: BTreeMap::new(),
        }
    }

    /// Whether the peer surely has the channel open too, so that it takes messages.
    pub fn peer_is_open(&self) -> bool {
        self.called || self.heard.is_some()
    }

    /// What is remembered of it once its row is free.
    pub fn former(&self) -> Former {
        Former {
            id: self.id,
            peer: self.peer,
            address: self.address,
            told: 0,
        }
    }

    /// Forgets when chunks were sent that are no longer wanted.
    pub fn forget_unwanted(&mut self, wants: &[u32]) {
        self.sent.retain(|&chunk, _| bits::get(wants, chunk));
    }
}
