//! Datagrams that are cut anywhere, of every length, and too long ones.

use super::{fitting, of_kind};
use crate::candidate::Candidate;
use crate::scenes::{addressing, CHANNEL};
use harness::packets::*;
use harness::random::Random;
use second::sha256::Digest;
use second::wire::MAX_SIZE;

/// The types that messages have.
const TYPES: [u8; 9] = [0, 1, 2, 3, 4, 8, 9, 10, 11];

/// Lengths of too long ones: the least, and the most that UDP carries.
const TOO_LONG: [usize; 3] = [MAX_SIZE + 1, 4_096, 65_507];

/// Each message cut behind each of its bytes, alone and behind as many HAVE as
/// there is room for.
pub fn cuts(root: &Digest) -> Vec<Candidate> {
    let messages = [
        handshake(9, &fixed(addressing(), root)),
        of_kind(ACK, 0, 511),
        of_kind(HAVE, 0, 511),
        of_kind(REQUEST, 0, 511),
        of_kind(CANCEL, 0, 511),
        integrity(addressing(), 511, &[7; 32]),
        data(addressing(), 0, 0, 0, &[7; 24]),
    ];
    let cut = messages.iter().flat_map(|message| {
        let cut = |size| message[..size].to_vec();
        (1..message.len()).map(cut)
    });
    let have = of_kind(HAVE, 0, 511);
    let both = cut.flat_map(|cut| {
        let mut behind = fitting(std::iter::repeat(&have), cut.len());
        behind.push(cut.clone());
        [Candidate::new(&[cut]), Candidate::new(&behind)]
    });
    both.collect()
}

/// Of every length: one-byte messages, HAVE that are cut, and bytes by chance
/// behind types; and some that are too long.
pub fn every_length(random: &mut Random) -> Vec<Candidate> {
    let chokes = datagram(CHANNEL, &vec![vec![CHOKE]; MAX_SIZE]);
    let haves = datagram(CHANNEL, &vec![of_kind(HAVE, 0, 511); MAX_SIZE]);
    let mut all = Vec::new();
    for size in 0..=MAX_SIZE {
        let cut = |whole: &[u8]| Candidate::of(whole[..size].to_vec());
        all.extend([cut(&chokes), cut(&haves), cut(&by_chance(random))]);
    }
    let too_long = TOO_LONG.map(|size| Candidate::of(vec![CHOKE; size]));
    [all, too_long.to_vec()].concat()
}

/// Types, and behind each some bytes, mostly zeros.
fn by_chance(random: &mut Random) -> Vec<u8> {
    let mut bytes = CHANNEL.to_be_bytes().to_vec();
    while bytes.len() < MAX_SIZE {
        bytes.push(random.one_of(&TYPES));
        let count = random.place(20);
        bytes.extend(random.bytes(count).iter().map(|byte| byte / 128));
    }
    bytes
}
