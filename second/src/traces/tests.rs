//! Every line gets the number it was made for, and every kind occurs.

use super::kinds::PAIRS;
use super::*;
use crate::replay::replay;
use std::collections::BTreeMap;

/// The seeds that are tried.
const SEEDS: std::ops::Range<u64> = 0..400;

/// The lines that the program answers a trace with.
fn answers(trace: &Trace) -> Vec<String> {
    let mut output = Vec::new();
    replay(&trace.bytes[..], &mut output).unwrap();
    let output = String::from_utf8(output).unwrap();
    output.lines().map(str::to_string).collect()
}

/// The number at the front of a line.
fn number(line: &str) -> u8 {
    u8::from_str_radix(&line[..2], 16).unwrap()
}

#[test]
fn a_seed_always_gives_the_same() {
    for seed in 0..20 {
        assert_eq!(generate(seed), generate(seed));
        assert_ne!(generate(seed), generate(seed + 1));
    }
}

#[test]
fn each_line_gets_the_number_it_was_made_for() {
    for seed in SEEDS {
        let trace = generate_counted(seed);
        let answers = answers(&trace);
        let [first, rest @ ..] = &trace.kinds[..] else {
            panic!("{seed}: no line");
        };
        if *first == Kind::BadOrder {
            assert_eq!(answers, ["0c"], "{seed}");
            continue;
        }
        assert_eq!(answers.len(), rest.len() + 1, "{seed}");
        for (place, (kind, line)) in rest.iter().zip(&answers).enumerate() {
            if let Some(wanted) = kind.number() {
                assert_eq!(number(line), wanted, "{seed}, line {}: {kind:?}", place + 2);
            }
        }
    }
}

/// How often each of these occurs over all seeds.
fn counts<T: Ord>(of: impl Fn(&Trace) -> Vec<T>) -> BTreeMap<T, usize> {
    let mut counts = BTreeMap::new();
    for seed in SEEDS {
        for each in of(&generate_counted(seed)) {
            *counts.entry(each).or_default() += 1;
        }
    }
    counts
}

#[test]
fn every_kind_occurs() {
    let counts = counts(|trace| trace.kinds.clone());
    let pairs = PAIRS.map(|(first, second)| Kind::Both(first, second));
    let all = [
        &[Kind::GoodOrder, Kind::BadOrder, Kind::OtherPack][..],
        &Kind::FAULTS,
        &Kind::LINES,
        &Kind::CHUNKS,
        &Kind::MESSAGES,
        &Kind::HANDSHAKES,
        &Kind::MUTATED,
        &pairs,
    ]
    .concat();
    let count = |kind: &Kind| counts.get(kind).copied().unwrap_or(0);
    let rare: Vec<_> = all.iter().filter(|kind| count(kind) < 10).collect();
    assert!(rare.is_empty(), "{rare:?} of {counts:?}");
}

#[test]
fn every_number_occurs_often() {
    let counts = counts(|trace| answers(trace).iter().map(|line| number(line)).collect());
    for number in [0, 1, 2, 3, 4, 5, 6, 7, 8, 9, 10, 12, 15, 0xf0, 0xff] {
        let count = counts.get(&number).copied().unwrap_or(0);
        let least = if number == 12 { 10 } else { 60 };
        assert!(count >= least, "{number}: {count}");
    }
    // 11, 13 and 14 are for calls that the program does not make.
    assert_eq!(counts.len(), 15, "{counts:?}");
}

#[test]
fn traces_are_short_and_most_stores_are_used() {
    let mut lines = 0;
    let mut used = 0;
    for seed in SEEDS {
        let trace = generate_counted(seed);
        assert!(trace.kinds.len() <= 160, "{seed}: {}", trace.kinds.len());
        lines += trace.kinds.len();
        let closing = answers(&trace).pop().unwrap();
        used += usize::from(!closing.ends_with("0000") && closing.len() == 6);
    }
    let seeds = SEEDS.count();
    assert!((20..120).contains(&(lines / seeds)), "{}", lines / seeds);
    assert!(used > seeds * 3 / 4, "{used} of {seeds}");
}
