//! The proved search for the biggest complete interval, on maps of up to 65,536
//! chunks: against `second`'s, against the definition of 02, No. 2, and, where no
//! caller should hand in such numbers, against a plain reading for all numbers. No
//! expected value comes from the proved code. A failure names the seed, which makes
//! the same map again.

use harness::channels::is_set;
use harness::intervals;
use harness::maps::{held_chunk, near_a_word, random_count, random_map};
use harness::packets::METHODS;
use harness::proved::held;
use harness::random::Random;
use second::run::biggest_interval;
use second::wire::Addressing;

/// How many random maps there are, and how many chunks of each are tried.
const MAPS: u32 = 6_000;
const CHUNKS: u32 = 8;

/// How often each kind of case must come.
const OFTEN: usize = 1_000;

/// The chunks of small packs, all maps of which are tried.
const SMALL: u32 = 10;

/// A map, by a name, and for how many chunks it is.
struct Map<'a>(&'a str, &'a [u32], u32);

/// The proved search gives this.
fn found(addressing: Addressing, map: &Map, chunk: u32, wanted: (u32, u32)) {
    let &Map(name, words, count) = map;
    let found = held::interval(addressing.number(), words, count, chunk);
    assert_eq!(
        found, wanted,
        "{name}, {addressing:?}, chunk {chunk} of {count}"
    );
}

/// "the biggest complete interval that covers it": of all that a method can name,
/// in the words of the paper.
fn biggest(addressing: Addressing, map: u32, count: u32, chunk: u32) -> (u32, u32) {
    let all = (0..count).flat_map(|first| (first..count).map(move |last| (first, last)));
    let named = |first: u32, last: u32| {
        let size = last - first + 1;
        addressing == Addressing::Ranges || (size.is_power_of_two() && first.is_multiple_of(size))
    };
    let complete = all.filter(|&(first, last)| {
        let mut chunks = first..=last;
        named(first, last) && chunks.contains(&chunk) && chunks.all(|c| map >> c & 1 == 1)
    });
    let biggest = complete.max_by_key(|(first, last)| last - first);
    biggest.expect("a chunk that is held")
}

/// All maps of small packs, with nothing behind their chunks and with ones.
#[test]
fn small_packs() {
    for count in 1..=SMALL {
        for map in 0..1 << count {
            small_map(map, count);
        }
    }
}

fn small_map(map: u32, count: u32) {
    let name = format!("map {map:x}");
    let junk = u32::MAX << count;
    let is_held = |chunk: &u32| map >> chunk & 1 == 1;
    for chunk in (0..count).filter(is_held) {
        for addressing in METHODS {
            let wanted = biggest(addressing, map, count, chunk);
            for words in [&[map][..], &[map | junk], &[map | junk, u32::MAX]] {
                found(addressing, &Map(&name, words, count), chunk, wanted);
                let plain = intervals::interval(addressing, words, count, chunk);
                assert_eq!(plain, wanted, "{name}, {addressing:?}, the plain reading");
            }
        }
    }
}

/// All of 65,536 chunks are held, all of 65,535 with a bit set behind them, and all
/// but one.
#[test]
fn the_longest_maps() {
    let both = |map: &Map, chunk, bins, ranges| {
        found(Addressing::Bins, map, chunk, bins);
        found(Addressing::Ranges, map, chunk, ranges);
    };
    let mut words = vec![u32::MAX; 2_048];
    let (whole, all) = (Map("all held", &words, 65_536), (0, 65_535));
    for chunk in [0, 1, 32_767, 32_768, 65_504, 65_535] {
        both(&whole, chunk, all, all);
    }
    let (whole, all) = (Map("all held", &words, 65_535), (0, 65_534));
    both(&whole, 0, (0, 32_767), all);
    both(&whole, 32_768, (32_768, 49_151), all);
    both(&whole, 65_533, (65_532, 65_533), all);
    both(&whole, 65_534, (65_534, 65_534), all);
    words[1_024] = !1;
    let but_one = Map("all but 32,768 held", &words, 65_536);
    let [below, behind] = [(0, 32_767), (32_769, 65_535)];
    both(&but_one, 5, below, below);
    both(&but_one, 32_767, below, below);
    both(&but_one, 32_769, (32_769, 32_769), behind);
    both(&but_one, 32_770, (32_770, 32_771), behind);
    both(&but_one, 32_800, (32_800, 32_831), behind);
    both(&but_one, 65_535, (49_152, 65_535), behind);
}

/// How often an interval was of one chunk, of up to 32, of up to 4,096 and of
/// more; and how often it ended with the pack where the bit behind is set.
#[derive(Debug, Default)]
struct Reached {
    sizes: [usize; 4],
    junk_behind: usize,
}

impl Reached {
    fn add(&mut self, map: &[u32], count: u32, (first, last): (u32, u32)) {
        let kind = match last - first + 1 {
            1 => 0,
            2..=32 => 1,
            33..=4_096 => 2,
            _ => 3,
        };
        self.sizes[kind] += 1;
        let at_end = last == count - 1 && is_set(map, count as usize);
        self.junk_behind += usize::from(at_end);
    }

    fn check(&self) {
        let least = self.sizes.into_iter().min();
        assert!(
            least >= Some(OFTEN) && self.junk_behind >= OFTEN,
            "{self:?}"
        );
    }
}

/// Held chunks of maps dense and sparse, against `second`.
#[test]
fn random_maps() {
    for addressing in METHODS {
        let mut reached = Reached::default();
        for seed in 0..MAPS {
            let mut random = Random::new(seed);
            let count = random_count(&mut random);
            let map = random_map(&mut random, count);
            let seed = format!("seed {seed}");
            for _ in 0..CHUNKS {
                let Some(chunk) = held_chunk(&mut random, &map, count) else {
                    break;
                };
                let wanted = biggest_interval(addressing, &map, count, chunk);
                found(addressing, &Map(&seed, &map, count), chunk, wanted);
                reached.add(&map, count, wanted);
            }
        }
        println!("{addressing:?}, {MAPS} maps: {reached:?}");
        reached.check();
    }
}

/// Chunks that are not held, that are not of the pack, and maps that are too
/// short for it, against a plain reading.
#[test]
fn numbers_that_no_caller_hands_in() {
    let (mut not_held, mut past_pack, mut short, mut longer) = (0, 0, 0, 0);
    for seed in 0..MAPS {
        let mut random = Random::new(seed);
        let (map, count) = any_map(&mut random);
        let seed = format!("seed {seed}");
        for _ in 0..CHUNKS {
            let chunk = any_chunk(&mut random, &map, count);
            for addressing in METHODS {
                let wanted = intervals::interval(addressing, &map, count, chunk);
                found(addressing, &Map(&seed, &map, count), chunk, wanted);
                longer += usize::from(wanted != (chunk, chunk));
            }
            not_held += usize::from(!is_set(&map, chunk as usize));
            past_pack += usize::from(chunk >= count);
            short += usize::from(32 * map.len() < count as usize);
        }
    }
    println!("{not_held} not held, {past_pack} past the pack, {short} in maps too short");
    println!("{longer} intervals of more than the chunk");
    assert!(not_held.min(past_pack).min(short).min(longer) >= OFTEN);
}

/// A map, in half of the cases cut, and a number of chunks, perhaps none of its
/// own.
fn any_map(random: &mut Random) -> (Vec<u32>, u32) {
    let count = random_count(random);
    let mut map = random_map(random, count);
    if random.one_in(2) {
        map.truncate(random.place(map.len() + 1));
    }
    let another = random.number() >> random.below(32);
    let count = match random.below(4) {
        0 => random.one_of(&[0, 1, 1 << 31, (1 << 31) + 1, u32::MAX, another]),
        _ => count,
    };
    (map, count)
}

/// A chunk: of the pack or the map, around its ends, or any.
fn any_chunk(random: &mut Random, map: &[u32], count: u32) -> u32 {
    let bits = 32 * map.len() as u32;
    match random.below(6) {
        0 => count.wrapping_sub(2).wrapping_add(random.below(4)),
        1 => bits.wrapping_sub(2).wrapping_add(random.below(4)),
        2 => near_a_word(random, map.len() as u32 + 1),
        3 => random.one_of(&[0, 1, 1 << 31, u32::MAX - 1, u32::MAX]),
        4 => random.number() >> random.below(32),
        _ => random.below(bits + 40),
    }
}

/// "With ranges": so it is under each number but that of bins.
#[test]
fn numbers_of_no_method() {
    let mut random = Random::new(MAPS);
    for method in [1, 2, 3, 4, 255, 256, 258, 1 << 31, u32::MAX] {
        for _ in 0..20 {
            let count = random_count(&mut random);
            let map = random_map(&mut random, count);
            let chunk = random.below(count);
            let wanted = intervals::interval(Addressing::Ranges, &map, count, chunk);
            assert_eq!(held::interval(method, &map, count, chunk), wanted);
        }
    }
}
