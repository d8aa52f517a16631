//! Whole runs.

use crate::support::{quiet, short, spoilt};
use ppspp::Addressing;
use std::time::Duration;
use yard::datagram::Origin;
use yard::node::SERVER;
use yard::radio::Faults;
use yard::random::Rate;
use yard::run::{Settings, Yard};
use yard::{plot, summary};

fn run(settings: &Settings) -> Yard {
    let mut yard = Yard::new(settings);
    yard.run();
    yard
}

fn told(settings: &Settings, yard: &Yard) -> String {
    summary::summary(settings, yard, Duration::ZERO) + &plot::plot(settings, yard)
}

#[test]
fn a_seed_decides_the_run() {
    let settings = short(11);
    let (one, two) = (run(&settings), run(&settings));
    assert_eq!(told(&settings, &one), told(&settings, &two));
    assert_eq!(one.record.trace, two.record.trace);
    assert_ne!(one.record.trace, run(&short(12)).record.trace);
}

#[test]
fn a_quiet_yard_gets_whole() {
    for seed in 1..=4 {
        let yard = run(&quiet(seed));
        assert!(summary::is_good(&yard), "seed {seed}");
        let counts = yard.radio.counts;
        assert_eq!((counts.lost, counts.duplicated, counts.flipped), (0, 0, 0));
        let all = |origin| yard.record.tally.taken(origin);
        assert_eq!(all(Origin::Damaged).answers, [0; 15]);
        assert_eq!(all(Origin::Honest).stored, 8 * 24);
    }
}

/// Eight vans, faults, drop-outs and the attacker.
#[test]
fn a_yard_with_everything_gets_whole() {
    for seed in 1..=8 {
        let settings = short(seed);
        let yard = run(&settings);
        assert!(summary::is_good(&yard), "{}", told(&settings, &yard));
        assert!(yard.record.tally.chunks_by_vans > 0, "vans feed each other");
        assert_eq!(
            yard.record.tally.calls_refused, 0,
            "rows are kept for calls"
        );
        for van in &yard.nodes[SERVER + 1..] {
            assert!(van.store.bytes() == yard.record.pack.content());
        }
    }
}

/// Of two chunks each van acknowledges one alone, and with the second both, whichever comes first.
#[test]
fn acks_are_told_with_the_chunks_that_they_name() {
    for addressing in [Addressing::Ranges, Addressing::Bins] {
        let settings = Settings {
            chunks: 2,
            addressing,
            ..quiet(1)
        };
        let yard = run(&settings);
        let tally = &yard.record.tally;
        assert_eq!(tally.taken(Origin::Honest).stored, 8 * 2);
        assert_eq!((tally.acks, tally.acknowledged), (8 * 2, 8 * 3));
        let text = told(&settings, &yard);
        for (words, number) in [
            ("ACKs sent", 16),
            ("  chunks that they name, in all", 24),
            ("  chunks an ACK, rounded down", 1),
        ] {
            let line = format!("\n  {words:<46}{number:>10}\n");
            assert!(text.contains(&line), "{line}{text}");
        }
    }
}

/// More vans than the server has rows, and all sorts of attack: each number that taking in can give is given. 11 and 12
/// are for rooms and orders, 13 for writing.
#[test]
fn every_number_is_met() {
    let yard = run(&Settings {
        vans: 30,
        chunks: 61,
        ..short(5)
    });
    assert!(summary::is_good(&yard));
    let tally = &yard.record.tally;
    for number in (0..15).filter(|number| ![11, 12, 13].contains(number)) {
        let times = tally.sum(|_| true, |taken| taken.answers[number]);
        assert!(times > 0, "number {number}");
    }
    for origin in Origin::under(Addressing::Ranges) {
        assert!(
            tally.taken(origin).answers.iter().sum::<u64>() > 0,
            "{origin:?}"
        );
    }
}

#[test]
fn all_datagrams_are_accounted_for() {
    let yard = run(&short(21));
    let (counts, tally) = (yard.radio.counts, &yard.record.tally);
    let copies = tally.arrived + tally.to_absent + yard.under_way();
    assert_eq!(counts.sent + counts.duplicated, counts.lost + copies);
    let answers = tally.sum(
        |origin| origin != Origin::Loader,
        |taken| taken.answers.iter().sum(),
    );
    assert_eq!(tally.arrived, answers);
}

/// Each drop-out is a fall to 0, and a van that came back has fetched all chunks again.
#[test]
fn vans_that_dropped_out_start_again() {
    let yard = run(&short(2));
    let falls = |history: &Vec<(u64, u32)>| {
        let pairs = history.windows(2).filter(|pair| pair[1].1 < pair[0].1);
        pairs.inspect(|pair| assert_eq!(pair[1].1, 0)).count() as u64
    };
    let vans = &yard.record.histories[SERVER + 1..];
    assert!(yard.record.tally.drop_outs > 0);
    assert_eq!(
        vans.iter().map(falls).sum::<u64>(),
        yard.record.tally.drop_outs
    );
    assert!(vans
        .iter()
        .all(|history| history.last().map(|end| end.1) == Some(24)));
}

/// One byte of one van is changed after a good run.
#[test]
fn a_bad_byte_at_the_end_is_noticed() {
    let mut yard = run(&quiet(1));
    assert!(summary::is_good(&yard));
    yard.nodes[3].store = spoilt(&yard.nodes[3].store, |rooms| rooms.chunks[100] ^= 1);
    assert!(!summary::is_good(&yard));
    assert_eq!(yard.verdicts()[3].bad_bytes, 1);
}

/// One byte of the server is changed at the start: no van takes that chunk, and the comparisons tell.
#[test]
fn a_bad_byte_on_the_way_is_noticed() {
    let settings = quiet(1);
    let mut yard = Yard::new(&settings);
    let server = &yard.nodes[SERVER].store;
    yard.nodes[SERVER].store = spoilt(server, |rooms| rooms.chunks[100] ^= 1);
    yard.run();
    assert!(yard.record.tally.bad_bytes > 0);
    assert!(!summary::is_good(&yard));
}

/// Nothing ever arrives: calls are given up, their rows are free again, and the run ends at its limit.
#[test]
fn calls_that_nobody_hears_fill_no_rows() {
    let faults = Faults {
        loss: Rate::WHOLE,
        ..Faults::NONE
    };
    let yard = run(&Settings {
        faults,
        vans: 2,
        seconds: 120,
        ..short(1)
    });
    assert_eq!((yard.now, yard.record.tally.arrived), (120_000_000, 0));
    assert!(yard.record.tally.given_up > 100);
    assert!(yard
        .nodes
        .iter()
        .all(|node| node.store.channels().count() <= 5));
    assert!(!summary::is_good(&yard));
}

/// The least yard: one van and one chunk.
#[test]
fn one_van_and_one_chunk_are_enough() {
    let settings = Settings {
        vans: 1,
        chunks: 1,
        ..short(1)
    };
    assert!(summary::is_good(&run(&settings)));
}
