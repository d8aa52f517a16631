//! Datagrams without HANDSHAKE and DATA: the same messages again and again, and
//! any messages, taken and refused.

use super::{fitting, most_nodes, of_kind, RANGED};
use crate::candidate::Candidate;
use crate::scenes::{addressing, CALLING, UNUSED};
use harness::packets::*;
use harness::random::Random;
use second::tree;
use second::wire::MAX_SIZE;

/// Ranges: all chunks, one, and some that begin or end within a word.
const RANGES: [(u32, u32); 8] = [
    (0, 511),
    (0, 0),
    (511, 511),
    (31, 32),
    (1, 510),
    (0, 480),
    (31, 511),
    (32, 63),
];

/// All of them.
pub fn all(random: &mut Random) -> Vec<Candidate> {
    let taken = [in_turn(), in_any_order(random), nodes(random)].concat();
    let refused = taken.iter().flat_map(refused).collect();
    [taken, refused].concat()
}

/// One message, or two in turn, as often as there is room.
fn in_turn() -> Vec<Candidate> {
    let short = [CHOKE, UNCHOKE].map(|kind| vec![kind]);
    let ranged = RANGED.iter().flat_map(|&kind| {
        let of_range = move |&(first, last)| of_kind(kind, first, last);
        RANGES.iter().map(of_range)
    });
    let all: Vec<Vec<u8>> = short.into_iter().chain(ranged).collect();
    let pairs = all
        .iter()
        .flat_map(|one| all.iter().map(move |other| [one, other]));
    let in_turn = pairs.map(|pair| fitting(pair.into_iter().cycle(), 0));
    in_turn.map(|messages| Candidate::new(&messages)).collect()
}

/// Messages of one kind and of several in any order, of all chunks and of any
/// ranges.
fn in_any_order(random: &mut Random) -> Vec<Candidate> {
    let kinds: [&[u8]; 10] = [
        &[CHOKE, UNCHOKE],
        &[HAVE],
        &[REQUEST],
        &[CANCEL],
        &[ACK],
        &[REQUEST, CANCEL],
        &[CHOKE, HAVE],
        &[ACK, HAVE, REQUEST, CANCEL],
        &[CHOKE, UNCHOKE, ACK, HAVE, REQUEST, CANCEL],
        &[CHOKE, CHOKE, UNCHOKE, UNCHOKE, HAVE, REQUEST, CANCEL],
    ];
    let mut message = |kinds: &[u8], all_chunks: bool| {
        let [one, other] = match all_chunks {
            true => [0, 511],
            false => [(); 2].map(|()| random.below(512)),
        };
        match random.one_of(kinds) {
            kind @ (CHOKE | UNCHOKE) => vec![kind],
            kind => of_kind(kind, one.min(other), one.max(other)),
        }
    };
    let both = kinds
        .iter()
        .flat_map(|kinds| [(kinds, true), (kinds, false)]);
    let lists = both.map(|(kinds, all_chunks)| {
        let list = (0..MAX_SIZE).map(|_| message(kinds, all_chunks));
        fitting(&list.collect::<Vec<_>>(), 0)
    });
    lists.map(|list| Candidate::new(&list).mixed()).collect()
}

/// INTEGRITY in every number, of any nodes and of leaves; behind them nothing, or
/// as much else as there is room for.
fn nodes(random: &mut Random) -> Vec<Candidate> {
    let mut any: Vec<u64> = (0..1_023).collect();
    random.shuffle(&mut any);
    let leaves = (0..512).map(tree::leaf).collect();
    let lists = [any, leaves].map(|nodes: Vec<u64>| {
        let hashes = nodes
            .iter()
            .map(|&node| integrity(addressing(), node, &random.digest()));
        hashes.take(most_nodes()).collect::<Vec<_>>()
    });
    let lists = lists
        .iter()
        .flat_map(|list| (1..=most_nodes()).map(move |count| &list[..count]));
    let more = [of_kind(HAVE, 0, 511), of_kind(REQUEST, 1, 510)];
    let both = lists.flat_map(|list| {
        let full = fitting(list.iter().chain(more.iter().cycle()), 0);
        [Candidate::new(list), Candidate::new(&full)]
    });
    both.collect()
}

/// A datagram that is taken, so that it is refused at its very end, or for its
/// channel; and taken with its messages in any order.
fn refused(taken: &Candidate) -> Vec<Candidate> {
    let list = messages(addressing(), &taken.datagram);
    let ends = [
        vec![255],
        vec![INTEGRITY],
        of_kind(HAVE, 5, 4),
        of_kind(HAVE, 511, 512),
        of_kind(HAVE, 512, 512),
        handshake(0, &END_ONLY),
        // Twice, if it is INTEGRITY.
        list[0].clone(),
    ];
    let ended = ends.into_iter().map(|end| {
        let mut ended = fitting(&list, end.len());
        ended.push(end);
        Candidate::new(&ended)
    });
    let away = [CALLING, UNUSED, 0].map(|channel| taken.clone().to(channel));
    ended.chain(away).chain([taken.clone().mixed()]).collect()
}
