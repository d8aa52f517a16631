//! How fast the proved search for the biggest complete interval around a chunk is,
//! beside `second`'s: on maps of which all chunks are held, and of which each
//! second one is, as ranges and as bins.
//!
//! One process gives each job to both in turn, for some seconds, and the best time
//! of each counts. The table is printed; no number decides anything.

use harness::bench::{measure, timed, Job, Unit, NAMES};
use harness::proved::held;
use second::run::biggest_interval;
use second::wire::Addressing;
use std::hint::black_box;
use std::time::Duration;

/// The most chunks of a map, and those of the longest pack.
const MOST: u32 = 65_536;
const LONGEST: u32 = 512;

/// The words of maps of which all chunks are held, and of which each second one is.
const ALL: u32 = u32::MAX;
const EACH_SECOND: u32 = 0x5555_5555;

/// What is held and which chunk the search is for; the words of the map, its
/// chunks, and that chunk.
const SEARCHES: [(&str, u32, u32, u32); 4] = [
    ("all of 65,536 held, the middle", ALL, MOST, MOST / 2),
    ("all of 65,536 held, the last", ALL, MOST, MOST - 1),
    ("all of 512 held, the middle", ALL, LONGEST, LONGEST / 2),
    ("each second of 65,536 held", EACH_SECOND, MOST, MOST / 2),
];

/// How often a run searches.
const TIMES: usize = 1_000;

/// How long it takes.
const RUN: Duration = Duration::from_secs(6);

fn main() {
    let under = |addressing, end| SEARCHES.map(|search| job(addressing, end, search));
    let ranges = under(Addressing::Ranges, "");
    let bins = under(Addressing::Bins, ", under bins");
    let jobs = ranges.into_iter().chain(bins).collect();
    let caption = "The biggest complete interval around a chunk";
    measure(caption, &NAMES, jobs, RUN);
}

/// A search under a method, whose name ends so.
fn job(
    addressing: Addressing,
    end: &str,
    (name, word, count, chunk): (&str, u32, u32, u32),
) -> Job<'static> {
    let name = format!("{name}{end}");
    let method = addressing.number();
    let map = vec![word; count.div_ceil(32) as usize];
    let wanted = biggest_interval(addressing, &map, count, chunk);
    assert_eq!(held::interval(method, &map, count, chunk), wanted, "{name}");
    let for_second = map.clone();
    let proved = move || {
        repeated(|| held::interval(black_box(method), black_box(&map), count, black_box(chunk)))
    };
    let second = move || {
        repeated(|| {
            let (addressing, map) = (black_box(addressing), black_box(&for_second));
            biggest_interval(addressing, map, count, black_box(chunk))
        })
    };
    Job::new(name, Unit::Nanoseconds(TIMES), proved, second)
}

/// Searches again and again, and gives the time of all of it.
fn repeated(mut search: impl FnMut() -> (u32, u32)) -> Duration {
    timed(|| {
        for _ in 0..TIMES {
            black_box(search());
        }
    })
}
