//! The calls of the loader's interface on the longest pack: building it, taking
//! in its chunks, with all hashes and with the least, in order, and again when
//! they are held; writing each chunk; datagrams that do next to nothing, which
//! show what a call costs at the least; one HAVE of all chunks; and as many of
//! them as a datagram has room for. Then the same under bins, but for building.

use crate::jobs::{any_order, build, take, write, written, Ready, Task, CHANNEL};
use harness::bench::{self, Job, Unit, NAMES};
use harness::calls::Call;
use harness::came::leave_least;
use harness::channels::{words_of, Both};
use harness::packets::{datagram, messages, ranged, with_bin, EVERYTHING, HAVE};
use harness::packs::Pack;
use harness::random::Random;
use second::wire::{Addressing, MAX_SIZE, MIN_SIZE};
use std::time::Duration;

/// How many datagrams without a chunk a run takes in: short ones, and long ones.
const DATAGRAMS: usize = 1_000;
const LONG: usize = 10;

/// How long it takes.
const RUN: Duration = Duration::from_secs(20);

/// Measures and prints.
pub fn measure() {
    let pack = Pack::new(&mut Random::new(0), 524_288);
    let order = any_order(&pack);
    let count = pack.count();
    let ranges = Under::new(
        Addressing::Ranges,
        &pack,
        &order,
        [(5, 10), (0, count - 1)]
            .map(|(first, last)| ranged(Addressing::Ranges, HAVE, first, last)),
    );
    let bins = Under::new(
        Addressing::Bins,
        &pack,
        &order,
        [11, EVERYTHING].map(|bin| with_bin(HAVE, bin)),
    );
    let mut jobs = vec![build(once("build 512 KiB"), &ranges.whole, &pack)];
    jobs.extend(ranges.jobs("HAVE of 512 chunks", ""));
    jobs.extend(bins.jobs("HAVE of everything", ", under bins"));
    let caption =
        "The calls of the interface, a pack of 512 KiB, its chunks in random order or in order";
    bench::measure(caption, &NAMES, jobs, RUN);
}

/// Stores of the pack under a method, and what comes to them.
struct Under<'a> {
    order: &'a [u32],
    fresh: Ready,
    whole: Ready,
    /// The datagrams of the chunks, with all hashes and with the least; and in
    /// order, with all.
    all: Vec<Vec<u8>>,
    least: Vec<Vec<u8>>,
    in_order: Vec<Vec<u8>>,
    /// Datagrams of one HAVE, of some chunks and of all.
    few: Vec<Vec<u8>>,
    every: Vec<Vec<u8>>,
    /// Datagrams of as many HAVE of all chunks as there is room for.
    most: Vec<Vec<u8>>,
    keepalive: Vec<Vec<u8>>,
    /// How many these are.
    haves: usize,
}

impl<'a> Under<'a> {
    /// With a HAVE of some chunks and one of all.
    fn new(addressing: Addressing, pack: &Pack, order: &'a [u32], have: [Vec<u8>; 2]) -> Self {
        let all = written(addressing, pack, order);
        let chunks: Vec<u32> = (0..pack.count()).collect();
        let [few, every] = have;
        let haves = (MAX_SIZE - MIN_SIZE) / every.len();
        let of = |messages: &[Vec<u8>], times| vec![datagram(CHANNEL, messages); times];
        Under {
            order,
            fresh: Ready::new(addressing, pack, false),
            whole: Ready::new(addressing, pack, true),
            least: least(addressing, pack, order, &all),
            in_order: written(addressing, pack, &chunks),
            all,
            few: of(&[few], DATAGRAMS),
            most: of(&vec![every.clone(); haves], LONG),
            every: of(&[every], DATAGRAMS),
            keepalive: of(&[], DATAGRAMS),
            haves,
        }
    }

    /// The jobs; the HAVE of all chunks has a name of its own, and each name ends
    /// so.
    fn jobs(&self, have: &str, end: &str) -> Vec<Job<'_>> {
        let (fresh, whole) = (&self.fresh, &self.whole);
        let once = |name: &str| once(&format!("{name}{end}"));
        let of_one = |name: &str| Task {
            unit: Unit::Nanoseconds(DATAGRAMS),
            ..once(name)
        };
        let of_long = |name: &str| Task {
            unit: Unit::Microseconds(LONG),
            ..once(name)
        };
        let one_of_all = format!("take in one {have}");
        let most = format!("take in {} {have}", self.haves);
        vec![
            take(once("take in 512 chunks with all hashes"), fresh, &self.all),
            take(once("the same with the least hashes"), fresh, &self.least),
            take(once("take in 512 chunks in order"), fresh, &self.in_order),
            take(once("take in 512 chunks that are held"), whole, &self.all),
            write(once("write 512 chunks"), whole, self.order),
            take(of_one("take in one HAVE"), fresh, &self.few),
            take(of_one("take in a keepalive"), fresh, &self.keepalive),
            take(of_one(&one_of_all), fresh, &self.every),
            take(of_long(&most), fresh, &self.most),
        ]
    }
}

/// A job that a run does once.
fn once(name: &str) -> Task {
    Task {
        name: name.to_string(),
        unit: Unit::Microseconds(1),
        times: 1,
    }
}

/// The datagrams of chunks, each without the hashes that a store that took those
/// before it does not need.
fn least(addressing: Addressing, pack: &Pack, order: &[u32], all: &[Vec<u8>]) -> Vec<Vec<u8>> {
    let Ready { state, rooms } = Ready::new(addressing, pack, false);
    let mut store = Both::new(words_of(&state).to_vec(), rooms);
    let least = order.iter().zip(all).map(|(&chunk, all)| {
        let mut least = messages(addressing, all);
        let trusts = |node| store.trusts(node);
        leave_least(addressing, &mut least, pack.count(), chunk, trusts);
        let datagram = datagram(CHANNEL, &least);
        let take = Call::Take {
            clock: 0,
            id: 0,
            datagram: datagram.clone(),
        };
        assert_eq!(store.call("taken beforehand", &take).number, 0);
        datagram
    });
    least.collect()
}
