//! How the cost of the calls grows with the number of chunks, under ranges.

use crate::jobs::{any_order, ask, build, take, write, written, Ready, Task};
use harness::bench::{self, Job, Unit, NAMES};
use harness::packs::Pack;
use harness::random::Random;
use second::wire::Addressing;
use std::time::Duration;

/// The numbers of chunks.
const COUNTS: [usize; 6] = [1, 8, 64, 128, 256, 512];

/// How many chunks a run builds or writes, how many it takes in at least, and how
/// often it asks.
const BUILT: usize = 512;
const TAKEN: usize = 16;
const ASKED: usize = 1_000;

/// How long it takes.
const RUN: Duration = Duration::from_secs(15);

/// A pack, its chunks in some order with the datagrams that bring them, and
/// stores of it.
struct OfCount {
    pack: Pack,
    order: Vec<u32>,
    datagrams: Vec<Vec<u8>>,
    fresh: Ready,
    whole: Ready,
}

impl OfCount {
    fn new(count: usize) -> Self {
        let count = count as u32;
        let pack = Pack::new(&mut Random::new(count), 1_024 * count);
        let order = any_order(&pack);
        let ranges = Addressing::Ranges;
        OfCount {
            datagrams: written(ranges, &pack, &order),
            fresh: Ready::new(ranges, &pack, false),
            whole: Ready::new(ranges, &pack, true),
            order,
            pack,
        }
    }

    /// A job for each call, its time divided by the chunks.
    fn jobs(&self) -> [Job<'_>; 4] {
        let count = self.order.len();
        let task = |call: &str, times: usize| Task {
            name: format!("{call}, N = {count}"),
            unit: Unit::Microseconds(times * count),
            times,
        };
        let again = BUILT / count;
        let stores = (TAKEN / count).max(1);
        [
            build(task("build", again), &self.whole, &self.pack),
            take(
                task("take in all chunks", stores),
                &self.fresh,
                &self.datagrams,
            ),
            write(task("write all chunks", again), &self.whole, &self.order),
            ask(task("ask", ASKED), &self.whole),
        ]
    }
}

/// Measures and prints, call by call.
pub fn measure() {
    let counts = COUNTS.map(OfCount::new);
    let mut by_call = [const { Vec::new() }; 4];
    for jobs in counts.iter().map(OfCount::jobs) {
        for (of_call, job) in by_call.iter_mut().zip(jobs) {
            of_call.push(job);
        }
    }
    let jobs = by_call.into_iter().flatten().collect();
    let caption = "How cost grows: packs of N KiB, each time divided by the N chunks";
    bench::measure(caption, &NAMES, jobs, RUN);
}
