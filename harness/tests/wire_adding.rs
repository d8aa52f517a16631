//! The proved writer of datagrams against `second`'s, call by call, on random
//! datagrams and messages, under either method. No expected value comes from the
//! proved code. A failure prints the datagram so far and the message.

use harness::composing::{data, length_told};
use harness::datagrams::{add, add_as, begin, layout};
use harness::numbers::{numbers, of_no_message, with_unused, UNWRITABLE};
use harness::packets::METHODS;
use harness::proved::wire::{ENTRY_WORDS, LAID_WORDS};
use harness::random::Random;
use second::wire::Addressing;
use second::wire_cases::{datagrams, messages};

/// How many messages are added to random datagrams.
const SEEDS: u64 = 40;
const OF_A_SEED: usize = 1_000;

/// How many datagrams are begun, and how many refusals end one.
const LISTS: u64 = 2_000;
const REFUSALS: usize = 6;

/// What the writer can answer, and what it can where the message cannot be
/// written.
const NUMBERS: [u32; 5] = [0, 1, 2, 3, 11];
const NEVER_DONE: [u32; 4] = [1, 2, 3, 11];

/// How often each number was the answer.
type Counts = [usize; 12];

/// Messages added to random datagrams, sound or not, in rooms with anything
/// behind them; half of them with anything in the numbers that have no use.
#[test]
fn random_adds() {
    METHODS.into_iter().for_each(random_adds_under);
}

fn random_adds_under(addressing: Addressing) {
    let mut random = Random::new(5);
    let mut counts = [0; 12];
    for seed in 0..SEEDS {
        let so_far = datagrams(addressing, 3_000 + seed, OF_A_SEED);
        for (so_far, (message, source)) in so_far.zip(messages(addressing, seed, OF_A_SEED)) {
            let (room, len) = told_room(&mut random, &so_far);
            let any_bytes = any_bytes(&mut random);
            let sent = if random.one_in(2) {
                let numbers = with_unused(&mut random, numbers(&message, &source), &any_bytes);
                add_as(addressing, &room, len, numbers, &message, &source)
            } else {
                add(addressing, &room, len, &message, &source)
            };
            counts[sent.number as usize] += 1;
        }
    }
    demand("random adds", &counts, &NUMBERS);
}

/// The same for numbers that no message has: wanted is what `second` answers for
/// a message that cannot be written.
#[test]
fn numbers_of_no_message() {
    METHODS.into_iter().for_each(numbers_of_no_message_under);
}

fn numbers_of_no_message_under(addressing: Addressing) {
    let mut random = Random::new(9);
    let mut counts = [0; 12];
    for seed in 0..SEEDS {
        let so_far = datagrams(addressing, 5_000 + seed, OF_A_SEED);
        for (so_far, (message, source)) in so_far.zip(messages(addressing, 500 + seed, OF_A_SEED)) {
            let (room, len) = told_room(&mut random, &so_far);
            let numbers = of_no_message(&mut random, numbers(&message, &source));
            let sent = add_as(addressing, &room, len, numbers, &UNWRITABLE, &[]);
            counts[sent.number as usize] += 1;
        }
    }
    demand("numbers of no message", &counts, &NEVER_DONE);
}

/// The same for DATA with any two numbers for its range.
#[test]
fn data_with_any_range() {
    METHODS.into_iter().for_each(data_with_any_range_under);
}

fn data_with_any_range_under(addressing: Addressing) {
    let mut random = Random::new(11);
    let mut counts = [0; 12];
    for seed in 0..SEEDS {
        for so_far in datagrams(addressing, 7_000 + seed, OF_A_SEED) {
            let (room, len) = told_room(&mut random, &so_far);
            let (message, source) = data(&mut random);
            let sent = add(addressing, &room, len, &message, &source);
            counts[sent.number as usize] += 1;
        }
    }
    demand("DATA with any range", &counts, &NUMBERS);
}

/// A room, too small in some cases, that begins with these bytes, and the length
/// that the call is told.
fn told_room(random: &mut Random, so_far: &[u8]) -> (Vec<u8>, usize) {
    let size = match random.below(16) {
        0 => 2_047,
        1 => random.place(2_048),
        2..5 => 3_000,
        _ => 2_048,
    };
    let mut room = random.bytes(size);
    let len = so_far.len().min(size);
    room[..len].copy_from_slice(&so_far[..len]);
    (room, length_told(random, so_far.len()))
}

/// Bytes where a message has no use for any.
fn any_bytes(random: &mut Random) -> Vec<u8> {
    let size = random.one_of(&[0, 1, 31, 32, 33, 1_024, 2_100]);
    random.bytes(size)
}

/// Each of these numbers is the answer often, and no other is.
fn demand(what: &str, counts: &Counts, wanted: &[u32]) {
    let calls: usize = counts.iter().sum();
    println!("{what}: {calls} calls, {}", counted(counts));
    assert!(calls >= 20_000);
    for &number in wanted {
        let times = counts[number as usize];
        assert!(times >= 200, "{number} is rare: {}", counted(counts));
    }
    let others = (0..).zip(counts).filter(|(n, _)| !wanted.contains(n));
    assert!(others.map(|(_, times)| times).all(|&times| times == 0));
}

/// Datagrams begun, and messages added until some are refused.
#[test]
fn lists_of_adds() {
    METHODS.into_iter().for_each(lists_of_adds_under);
}

fn lists_of_adds_under(addressing: Addressing) {
    let mut random = Random::new(6);
    let mut counts = [0; 12];
    let mut longest = 0;
    for seed in 0..LISTS {
        let size = 2_048 + random.place(2) * random.place(1_000);
        let room = random.bytes(size);
        let mut sent = begin(&room, random.number());
        assert_eq!((sent.number, sent.len), (0, 4), "both begin");
        let mut len = sent.len;
        let mut refusals = 0;
        for (message, source) in messages(addressing, 10_000 + seed, 400) {
            sent = add(addressing, &sent.room, len, &message, &source);
            counts[sent.number as usize] += 1;
            if sent.number == 0 {
                len = sent.len;
                continue;
            }
            refusals += 1;
            if refusals == REFUSALS {
                break;
            }
        }
        let entries = random.long_words(ENTRY_WORDS);
        let found = random.long_words(LAID_WORDS);
        assert_eq!(
            layout(addressing, &sent.room[..len], &entries, &found),
            0,
            "both"
        );
        longest = longest.max(len);
    }
    println!(
        "{LISTS} lists of adds: {}, the longest datagram has {longest} bytes",
        counted(&counts)
    );
}

fn counted(counts: &Counts) -> String {
    NUMBERS
        .map(|number| format!("{number}: {}", counts[number as usize]))
        .join(", ")
}

/// Beginning in rooms of every kind.
#[test]
fn begins() {
    let mut random = Random::new(7);
    for size in [0, 1, 4, 2_047, 2_048, 2_049, 3_000] {
        let room = random.bytes(size);
        let sent = begin(&room, random.number());
        let wanted = if size < 2_048 { (11, 0) } else { (0, 4) };
        assert_eq!((sent.number, sent.len), wanted, "both");
    }
}
