//! What the search tries: a datagram, and what it meets.

use crate::scenes::{addressing, Scene, CHANNEL, COPIES, UNUSED};
use harness::packets::datagram;
use harness::random::Random;
use second::wire::{self, Step, MIN_SIZE};

#[derive(Clone)]
pub struct Candidate {
    pub scene: Scene,
    /// The ID that the loader passes with it.
    pub id: u32,
    pub datagram: Vec<u8>,
    /// Whether its messages, but for the last, come in another order each time, so
    /// that the processor cannot learn what comes next.
    pub mixed: bool,
}

impl Candidate {
    /// These messages to the open channel of a fresh store.
    pub fn new(messages: &[Vec<u8>]) -> Self {
        Candidate::of(datagram(CHANNEL, messages))
    }

    /// This datagram to a fresh store.
    pub fn of(datagram: Vec<u8>) -> Self {
        Candidate {
            scene: Scene::Fresh,
            id: UNUSED,
            datagram,
            mixed: false,
        }
    }

    /// The same, its messages in any order.
    pub fn mixed(self) -> Self {
        Candidate {
            mixed: true,
            ..self
        }
    }

    /// The same, where a store is found so.
    pub fn at(self, scene: Scene) -> Self {
        Candidate { scene, ..self }
    }

    /// The same, to another channel.
    pub fn to(mut self, destination: u32) -> Self {
        if let Some(bytes) = self.datagram.first_chunk_mut() {
            *bytes = destination.to_be_bytes();
        }
        self
    }

    /// The same, with another ID passed.
    pub fn with_id(self, id: u32) -> Self {
        Candidate { id, ..self }
    }
}

/// The messages of a datagram, each in its bytes, and at the end the bytes that
/// are none.
pub fn pieces(datagram: &[u8]) -> Vec<&[u8]> {
    let mut pieces = Vec::new();
    let mut at = MIN_SIZE;
    while at < datagram.len() {
        let next = match wire::step(addressing(), datagram, at) {
            Step::Read { next, .. } => next,
            Step::End | Step::Refused => datagram.len(),
        };
        pieces.push(&datagram[at..next]);
        at = next;
    }
    pieces
}

/// The datagrams of a run.
pub struct Run<'a> {
    pub datagrams: Vec<Vec<u8>>,
    /// The messages that come in any order: all but the last, or none.
    mixed: Vec<&'a [u8]>,
}

impl<'a> Run<'a> {
    pub fn of(candidate: &'a Candidate) -> Self {
        let mut mixed = Vec::new();
        if candidate.mixed {
            mixed = pieces(&candidate.datagram);
            mixed.pop();
        }
        Run {
            datagrams: vec![candidate.datagram.clone(); COPIES],
            mixed,
        }
    }

    /// Puts the messages of each in another order.
    pub fn mix(&mut self, random: &mut Random) {
        if self.mixed.len() < 2 {
            return;
        }
        for datagram in &mut self.datagrams {
            random.shuffle(&mut self.mixed);
            let mut at = MIN_SIZE;
            for piece in &self.mixed {
                datagram[at..at + piece.len()].copy_from_slice(piece);
                at += piece.len();
            }
        }
    }
}
