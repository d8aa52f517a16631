//! DATA: right, wrong, without a hash, of another length, and behind messages that
//! it does not need.

use super::{fitting, most_nodes};
use crate::candidate::Candidate;
use crate::scenes::{addressing, Scene};
use harness::packets::{data, integrity, is_integrity, node_of, CHOKE, UNCHOKE};
use harness::packs::Pack;
use harness::random::Random;
use second::tree;
use second::wire::MAX_SIZE;

/// Those for a pack of 512 chunks, on a store of it.
pub fn of_pack(random: &mut Random, pack: &Pack, scene: Scene) -> Vec<Candidate> {
    let mut all = Vec::new();
    for chunk in [0, 255, 256, 510, 511] {
        for list in lists(random, pack, chunk) {
            let (hashes, others) = (padding(random, &list), others(random));
            let [hashes, others] = [hashes, others].map(|padding| behind(&padding, &list));
            let [alone, hashes, others] =
                [list, hashes, others].map(|list| Candidate::new(&list).at(scene));
            all.extend([alone, hashes.clone().mixed(), hashes]);
            all.extend([others.clone().mixed(), others]);
        }
    }
    all
}

/// The messages of a chunk as they go out; with a wrong hash, a wrong byte or a
/// byte too few in the chunk; and without one of the hashes.
fn lists(random: &mut Random, pack: &Pack, chunk: u32) -> [Vec<Vec<u8>>; 5] {
    let nodes = tree::sending_order(pack.count(), chunk).into_iter();
    let hashes = nodes.map(|node| integrity(addressing(), node, pack.built.hash(node)));
    let data = data(addressing(), chunk, chunk, 0, pack.chunk(chunk));
    let good: Vec<Vec<u8>> = hashes.chain([data]).collect();
    let (hash, chunk) = (random.place(good.len() - 1), good.len() - 1);
    let size = good[chunk].len();
    let changed = |change: &dyn Fn(&mut Vec<Vec<u8>>)| {
        let mut changed = good.clone();
        change(&mut changed);
        changed
    };
    let flip = |message: &mut Vec<u8>| *message.last_mut().expect("some bytes") ^= 1;
    [
        good.clone(),
        changed(&|list| flip(&mut list[hash])),
        changed(&|list| flip(&mut list[chunk])),
        changed(&|list| list[chunk].truncate(size - 1)),
        changed(&|list| drop(list.remove(hash))),
    ]
}

/// The messages behind as many of these as there is room for.
fn behind(padding: &[Vec<u8>], messages: &[Vec<u8>]) -> Vec<Vec<u8>> {
    let size = messages.iter().map(Vec::len).sum();
    [&fitting(padding, size), messages].concat()
}

/// INTEGRITY of nodes that the messages lack.
fn padding(random: &mut Random, messages: &[Vec<u8>]) -> Vec<Vec<u8>> {
    let hashes = messages.iter().filter(|message| is_integrity(message));
    let known: Vec<u64> = hashes
        .map(|message| node_of(addressing(), message))
        .collect();
    let others = (0..1_023).rev().filter(|node| !known.contains(node));
    let others = others.map(|node| integrity(addressing(), node, &random.digest()));
    others.take(most_nodes()).collect()
}

/// CHOKE and UNCHOKE in any order.
fn others(random: &mut Random) -> Vec<Vec<u8>> {
    let message = |_| vec![random.one_of(&[CHOKE, UNCHOKE])];
    (0..MAX_SIZE).map(message).collect()
}
