//! Whole runs under bins, and yards in which one node's order has another addressing.

use crate::support::{quiet, short, short_bins};
use ppspp::{Addressing, Order, Phase};
use yard::datagram::{Attack, Origin};
use yard::node::{Node, SERVER};
use yard::random::Random;
use yard::run::{Settings, Yard};
use yard::summary;

fn run(settings: &Settings) -> Yard {
    let mut yard = Yard::new(settings);
    yard.run();
    yard
}

/// Eight vans, faults, drop-outs and the attacker.
#[test]
fn a_yard_under_bins_gets_whole() {
    for seed in 1..=8 {
        let yard = run(&short_bins(seed));
        assert!(summary::is_good(&yard), "seed {seed}");
        assert!(yard.record.tally.chunks_by_vans > 0, "vans feed each other");
        for node in &yard.nodes {
            assert_eq!(node.store.addressing(), Addressing::Bins);
            assert!(node.store.bytes() == yard.record.pack.content());
        }
    }
}

/// The seed decides it too, and its datagrams are not those under ranges.
#[test]
fn a_run_under_bins_is_another() {
    let trace = |settings: &Settings| run(settings).record.trace;
    assert_eq!(trace(&short_bins(3)), trace(&short_bins(3)));
    assert_ne!(trace(&short_bins(3)), trace(&short(3)));
}

/// Powers of two and others, where bins run past the last chunk.
#[test]
fn packs_of_any_size_get_whole_under_bins() {
    for chunks in [1, 2, 3, 7, 33] {
        let settings = Settings {
            chunks,
            ..short_bins(4)
        };
        assert!(summary::is_good(&run(&settings)), "{chunks} chunks");
    }
}

/// Each number that taking in can give is given, and each sort of datagram comes. 11 and 12 are for rooms and orders,
/// 13 for writing.
#[test]
fn every_number_is_met_under_bins() {
    let yard = run(&Settings {
        vans: 30,
        chunks: 61,
        ..short_bins(5)
    });
    assert!(summary::is_good(&yard));
    let tally = &yard.record.tally;
    for number in (0..15).filter(|number| ![11, 12, 13].contains(number)) {
        let times = tally.sum(|_| true, |taken| taken.answers[number]);
        assert!(times > 0, "number {number}");
    }
    for origin in Origin::all() {
        let answers = tally.taken(origin).answers;
        assert!(answers.iter().sum::<u64>() > 0, "{origin:?}");
    }
}

/// The empty bin and the one over everything are refused in DATA, ACK and INTEGRITY with 2, and taken in HAVE, REQUEST
/// and CANCEL; bins past the pack are refused with 7. Under ranges there are no wrong bins.
#[test]
fn wrong_bins_are_answered_by_what_they_are_in() {
    let yard = run(&short_bins(6));
    let answers = |attack| yard.record.tally.taken(Origin::Attacker(attack)).answers;
    let met = |attack, numbers: &[usize]| numbers.iter().all(|&number| answers(attack)[number] > 0);
    assert!(met(Attack::WrongBin, &[0, 2, 7]));
    assert!(met(Attack::FalseHave, &[0, 7]));
    assert!(met(Attack::FalseRequest, &[0, 7]));
    let hashes = answers(Attack::WrongHash);
    assert!(hashes[10] > hashes[2], "hashes stand behind a bin");
    let ranges = run(&short(6)).record.tally;
    let none = ranges.taken(Origin::Attacker(Attack::WrongBin));
    assert_eq!(none.answers, [0; 15]);
}

/// Gives a node, which has no channel yet, an order of the same pack with an addressing.
fn reorder(yard: &mut Yard, number: usize, addressing: Addressing) {
    let order: Order = yard.nodes[number].store.order().expect("it has an order");
    let mut store = yard.nodes[number].store.clone();
    let order = order.addressing(addressing);
    let done = match number {
        SERVER => store.rebuild(order, yard.record.pack.content()),
        _ => store.restart(order),
    };
    done.expect("the same pack");
    yard.nodes[number] = Node::new(number, store, yard.nodes.len(), Random::new(9));
}

/// A server of one addressing and a van of the other: each call is refused with 4, so no channel is ever opened. With
/// one addressing the same yard opens some.
#[test]
fn a_server_and_a_van_of_two_addressings_never_connect() {
    let settings = |addressing| Settings {
        vans: 1,
        seconds: 20,
        addressing,
        ..quiet(1)
    };
    let both = [Addressing::Ranges, Addressing::Bins];
    for (ours, others) in both.map(|ours| both.map(|others| (ours, others))).concat() {
        let mut yard = Yard::new(&settings(ours));
        reorder(&mut yard, SERVER, others);
        yard.run();
        let tally = &yard.record.tally;
        let refused = tally.taken(Origin::Honest).answers[4];
        assert_eq!(summary::is_good(&yard), ours == others);
        assert_eq!(tally.answered == 0, ours != others, "{ours:?}, {others:?}");
        assert_eq!(refused > 0, ours != others, "{ours:?}, {others:?}");
    }
}

/// Among vans of the other addressing a van stays empty and without a channel, and they get whole.
#[test]
fn a_van_among_others_of_another_addressing_stays_alone() {
    for (ours, others) in [
        (Addressing::Ranges, Addressing::Bins),
        (Addressing::Bins, Addressing::Ranges),
    ] {
        let mut yard = Yard::new(&Settings {
            seconds: 30,
            addressing: others,
            ..quiet(2)
        });
        reorder(&mut yard, 3, ours);
        yard.run();
        for (number, verdict) in yard.verdicts().iter().enumerate() {
            assert_eq!(verdict.missing, if number == 3 { 24 } else { 0 });
            assert_eq!(verdict.bad_bytes, 0);
        }
        let mut rows = yard.nodes[3].store.channels();
        assert!(rows.all(|channel| channel.phase == Phase::Calling));
    }
}
