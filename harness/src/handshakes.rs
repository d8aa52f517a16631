//! Random HANDSHAKEs that come to a store, right and wrong.

use crate::arriving::destination;
use crate::channels::Both;
use crate::packets::{datagram, fixed, handshake, other, CHOKE, END_ONLY};
use crate::random::Random;
use second::channel::Phase;

/// A channel number that a peer gives its own end.
fn source(random: &mut Random) -> u32 {
    match random.below(16) {
        0 => random.number(),
        _ => 1 + random.below(60),
    }
}

/// The fixed options around the store's root in most cases, else others, also
/// those of the other method.
fn options(random: &mut Random, store: &Both) -> Vec<u8> {
    let (addressing, root) = (store.state().addressing, &store.state().root);
    let ours = fixed(addressing, root);
    match random.below(13) {
        0 => fixed(addressing, &random.digest()),
        5 => fixed(other(addressing), root),
        1 => END_ONLY.to_vec(),
        2 => vec![0, 1, 255],
        3 => [&ours[..ours.len() - 3], &[8, 0, 255]].concat(),
        4 => {
            let mut other = ours;
            let at = random.place(other.len());
            other[at] = random.below(12) as u8;
            other
        }
        _ => ours,
    }
}

/// A HANDSHAKE to channel 0.
pub fn opening(random: &mut Random, store: &Both) -> Vec<u8> {
    let source = match random.below(24) {
        0 => 0,
        _ => source(random),
    };
    let options = options(random, store);
    datagram(0, &[handshake(source, &options)])
}

/// A HANDSHAKE to a row: one that opens it, one that changes nothing, one that
/// closes it, or one that the row refuses.
pub fn to_a_row(random: &mut Random, store: &Both) -> Vec<u8> {
    let row = random.one_of(&store.state().rows);
    let (source, options) = match random.below(16) {
        0..5 => (0, END_ONLY.to_vec()),
        5 => (0, options(random, store)),
        6 | 7 => (source(random), options(random, store)),
        _ if row.phase == Phase::Open => (row.peer, options(random, store)),
        _ => (source(random), options(random, store)),
    };
    let destination = match random.below(6) {
        0 => destination(random, store),
        _ => row.id,
    };
    let mut messages = vec![handshake(source, &options)];
    if random.one_in(16) {
        let at = random.place(2);
        messages.insert(at, vec![CHOKE]);
    }
    datagram(destination, &messages)
}
