//! HANDSHAKE: opening, answering, repeated and closing ones, and with options of
//! every kind.

use crate::candidate::Candidate;
use crate::scenes::{addressing, Scene, CALLING, CHANNEL, PEER, UNUSED};
use harness::packets::{fixed, handshake, CHOKE, END_ONLY};
use second::sha256::Digest;

/// The most bytes of a swarm ID in a datagram with nothing else.
const MOST_ID: u16 = 2_035;

/// All of them, for an order of this root.
pub fn all(root: &Digest) -> Vec<Candidate> {
    let options = options(root);
    let each = options.iter().flat_map(|options| {
        let sources = [0, PEER, PEER + 1];
        sources.into_iter().flat_map(|source| met(source, options))
    });
    each.collect()
}

/// A HANDSHAKE to each channel, alone and not, with each ID passed.
fn met(source: u32, options: &[u8]) -> [Candidate; 8] {
    let message = handshake(source, options);
    let alone = Candidate::new(std::slice::from_ref(&message));
    let opening = alone.clone().to(0);
    [
        alone.clone().to(CALLING),
        alone.clone().to(UNUSED),
        alone,
        opening.clone().at(Scene::Full),
        opening.clone().with_id(0),
        opening.clone().with_id(CHANNEL),
        opening,
        Candidate::new(&[message, vec![CHOKE]]),
    ]
}

/// The fixed options and End alone; options that are others, cut, too many, or out
/// of order; and long ones.
fn options(root: &Digest) -> Vec<Vec<u8>> {
    let ours = fixed(addressing(), root);
    let (_, endless) = ours.split_last().expect("End");
    let mut other_root = ours.clone();
    other_root[20] ^= 1;
    let every = [0, 1, 1, 1, 2, 0, 0, 3, 1, 4, 2, 5, 0, 6, 2, 7, 0, 0, 0, 0];
    let every = [&every[..], &[8, 0, 9, 0, 0, 4, 0]].concat();
    let supported = |count: u8| [&[8, count][..], &vec![255; count.into()], &[255]].concat();
    let swarm = |told: u16, count: u16| {
        let bytes = vec![7; count.into()];
        [&[2][..], &told.to_be_bytes(), &bytes, &[255]].concat()
    };
    vec![
        ours.clone(),
        other_root,
        endless.to_vec(),
        [endless, &[10, 255]].concat(),
        END_ONLY.to_vec(),
        Vec::new(),
        [&every[..], &[255]].concat(),
        [&every[..], &[9]].concat(),
        supported(0),
        supported(255),
        swarm(0, 0),
        swarm(32, 32),
        swarm(MOST_ID, MOST_ID),
        swarm(MOST_ID + 1, MOST_ID),
        swarm(u16::MAX, MOST_ID),
    ]
}
