//! The datagrams with which the search begins.

mod chunks;
mod handshakes;
mod lengths;
mod plain;

use crate::candidate::Candidate;
use crate::scenes::{addressing, Scene, Stage};
use harness::packets::{ack, integrity, ranged, ACK, CANCEL, HAVE, REQUEST};
use harness::random::Random;
use second::wire::{MAX_SIZE, MIN_SIZE};

/// The messages that are a range, and in ACK a delay.
pub const RANGED: [u8; 4] = [ACK, HAVE, REQUEST, CANCEL];

/// The most INTEGRITY that a datagram has room for.
fn most_nodes() -> usize {
    (MAX_SIZE - MIN_SIZE) / integrity(addressing(), 0, &[7; 32]).len()
}

/// All of them.
pub fn all(random: &mut Random, stages: &[Stage; Scene::ALL.len()]) -> Vec<Candidate> {
    let of_chunks = [Scene::Fresh, Scene::Whole, Scene::Short].map(|scene| {
        let pack = &stages[scene as usize].pack;
        chunks::of_pack(random, pack, scene)
    });
    let root = stages[Scene::Fresh as usize].pack.built.root();
    [
        plain::all(random),
        handshakes::all(root),
        of_chunks.concat(),
        lengths::cuts(root),
        lengths::every_length(random),
    ]
    .concat()
}

/// A message of a kind with a range.
pub fn of_kind(kind: u8, first: u32, last: u32) -> Vec<u8> {
    match kind {
        ACK => ack(addressing(), first, last, 0),
        _ => ranged(addressing(), kind, first, last),
    }
}

/// Of these messages, from the first on, as many as a datagram has room for beside
/// so many bytes.
fn fitting<'a>(messages: impl IntoIterator<Item = &'a Vec<u8>>, beside: usize) -> Vec<Vec<u8>> {
    let mut size = MIN_SIZE + beside;
    let fits = |message: &&Vec<u8>| {
        size += message.len();
        size <= MAX_SIZE
    };
    messages.into_iter().take_while(fits).cloned().collect()
}
