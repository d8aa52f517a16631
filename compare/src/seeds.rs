//! Random traces, each from a seed.

use crate::difference::{find, Difference};
use crate::program::{second, Program};
use crate::tally::Tally;
use second::traces::generate;
use std::io;
use std::ops::Range;
use std::sync::atomic::{AtomicBool, AtomicU64, Ordering};
use std::thread;

/// One seed in so many is fed in small pieces.
const IN_PIECES: u64 = 8;

/// A trace that the program answers in another way than `second`.
#[derive(Debug)]
pub struct Failure {
    pub seed: u64,
    pub input: Vec<u8>,
    pub difference: Difference,
}

/// What came of a range of seeds, or of a part of it.
#[derive(Default)]
pub struct Outcome {
    pub tally: Tally,
    /// The one of the lowest seed, if several threads met one.
    pub failure: Option<Failure>,
}

/// Compares the program with `second` on the traces of these seeds, in so many
/// threads, up to the first difference.
pub fn compare(program: &Program, seeds: Range<u64>, threads: usize) -> io::Result<Outcome> {
    let next = AtomicU64::new(seeds.start);
    let stop = AtomicBool::new(false);
    let parts: Vec<io::Result<Outcome>> = thread::scope(|scope| {
        let work = || {
            let outcome = work(program, &next, seeds.end, &stop);
            if !matches!(&outcome, Ok(outcome) if outcome.failure.is_none()) {
                stop.store(true, Ordering::Relaxed);
            }
            outcome
        };
        let running: Vec<_> = (0..threads).map(|_| scope.spawn(work)).collect();
        let ended = running.into_iter().map(|thread| thread.join());
        ended.map(|part| part.expect("no thread panics")).collect()
    });
    let mut whole = Outcome::default();
    for part in parts {
        let part = part?;
        whole.tally.add(&part.tally);
        let both = whole.failure.into_iter().chain(part.failure);
        whole.failure = both.min_by_key(|failure| failure.seed);
    }
    Ok(whole)
}

/// Takes seed after seed until there is none, or a thread met a difference.
fn work(program: &Program, next: &AtomicU64, end: u64, stop: &AtomicBool) -> io::Result<Outcome> {
    let mut outcome = Outcome::default();
    while !stop.load(Ordering::Relaxed) {
        let seed = next.fetch_add(1, Ordering::Relaxed);
        if seed >= end {
            break;
        }
        let input = generate(seed);
        let wanted = second(&input);
        let piece = if seed.is_multiple_of(IN_PIECES) {
            61
        } else {
            input.len().max(1)
        };
        let run = program.run(&input, piece)?;
        outcome.tally.count(&wanted);
        if let Some(difference) = find(&input, &wanted, &run) {
            outcome.failure = Some(Failure {
                seed,
                input,
                difference,
            });
            break;
        }
    }
    Ok(outcome)
}
