//! The proved store against `second`'s, call by call, on random packs, rooms,
//! chunks and hashes. No expected value comes from the proved code. A failure
//! names the seed, which makes the same calls again.

use harness::beside::{refused, Both};
use harness::packs::{random_length, random_rooms, Pack};
use harness::proved::store::{self, Order};
use harness::random::Random;
use harness::runs::{Answers, Run};
use harness::takes::Take;
use second::answer;

/// How many packs are tried, and how many chunks must have come in the end.
const SEEDS: u32 = 250;
const LEAST_TAKES: usize = 20_000;

/// How often each number of taking must come, how often a node of each kind must
/// be named, and how many nodes must be.
const OFTEN: usize = 100;
const OFTEN_NAMED: usize = 200;
const NODES: usize = 400;

const TOO_SMALL: u32 = answer::ROOM_TOO_SMALL as u32;
const BAD_LENGTH: u32 = answer::BAD_LENGTH as u32;

#[test]
fn random_packs() {
    let mut answers = Answers::default();
    for seed in 0..SEEDS {
        let mut random = Random::new(seed);
        let length = random_length(&mut random);
        run(seed, random, length, &mut answers);
    }
    println!("answers 0 to 12, {SEEDS} packs: {answers}");
    assert!(answers.take.iter().sum::<usize>() >= LEAST_TAKES);
    for number in [0, 7, 8, 9, 10, 11, 12] {
        assert!(answers.take[number] >= OFTEN, "{number} is rare: {answers}");
    }
    answers.named.demand(OFTEN_NAMED, NODES);
}

#[test]
fn the_longest_pack() {
    let mut answers = Answers::default();
    run(SEEDS, Random::new(SEEDS), 524_288, &mut answers);
    println!("answers 0 to 12, the longest pack: {answers}");
}

/// Packs of all small counts and of those around powers of two, with last chunks
/// of every kind: building, and each chunk right and wrong, in a leaping order.
#[test]
fn packs_of_every_shape() {
    let mut answers = Answers::default();
    for count in (1..=40).chain([63, 64, 65, 127, 128, 129, 511, 512]) {
        for last in [1, 2, 1_018, 1_023, 1_024] {
            let random = Random::new(1_000 * count + last);
            let mut run = Run {
                seed: 1_000 * count + last,
                random,
                answers: &mut answers,
            };
            run.chunks_in_turn(1_024 * (count - 1) + last);
        }
    }
    println!("answers 0 to 12, packs of every shape: {answers}");
    for number in [0, 8, 9, 10] {
        assert!(answers.take[number] >= 1_000, "{number} is rare: {answers}");
    }
}

/// Rooms, content and length all one byte over the limit.
#[test]
fn one_byte_too_long() {
    let mut random = Random::new(0);
    let rooms = random_rooms(&mut random, 524_289);
    let content = random.bytes(524_289);
    let built = Both::build("one byte too long", &[7; 8], 524_289, &rooms, &content);
    assert_eq!(built.err(), Some(BAD_LENGTH));
}

#[test]
fn a_root_of_another_length() {
    let mut random = Random::new(0);
    let pack = Pack::new(&mut random, 7_162);
    let length = pack.length();
    let rooms = random_rooms(&mut random, length);
    let take = Take::right(&pack, &pack.built, 0);
    for size in [0, 7, 9, 16] {
        let root = vec![7; size];
        let order = Order {
            root: &root,
            length,
        };
        let case = |call: &str| format!("{call} with a root of {size} words");
        refused(&case("start"), TOO_SMALL, &rooms, |rooms| {
            (store::start(order, rooms), None)
        });
        refused(&case("take"), TOO_SMALL, &rooms, |rooms| {
            take.to_proved(order, rooms)
        });
        let mut written = root.clone();
        refused(&case("build"), TOO_SMALL, &rooms, |rooms| {
            let number = store::build(&mut written, length, rooms, &pack.content);
            (number, None)
        });
        assert_eq!(written, root, "{}", case("build"));
    }
}

/// All calls for a pack of a length.
fn run(seed: u32, mut random: Random, length: u32, answers: &mut Answers) {
    let pack = Pack::new(&mut random, length);
    let mut run = Run {
        seed,
        random,
        answers,
    };
    run.all(&pack);
}
