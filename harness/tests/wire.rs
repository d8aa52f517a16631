//! The proved reader of datagrams against `second`'s, call by call, on random
//! datagrams, on cut ones and on those made by hand, which are also written
//! again, under either method. No expected value comes from the proved code. A failure prints the
//! datagram.

use harness::datagrams::{add, begin, layout, read};
use harness::packets::{other, METHODS};
use harness::proved::wire::{ENTRY_WORDS, LAID_WORDS};
use harness::random::Random;
use second::answer;
use second::by_hand::parse;
use second::wire::{self, Addressing, Message, Options, Step};
use second::wire_cases::{cuts, datagrams};

/// How many random datagrams are read.
const SEEDS: u64 = 40;
const OF_A_SEED: usize = 1_000;

/// How many random datagrams are cut everywhere, and how many of the other method
/// are read.
const CUT: usize = 400;
const OTHERS: usize = 10_000;

/// What the layout checks can answer.
const NUMBERS: [u32; 5] = [0, 1, 2, 3, 11];

const TOO_SMALL: u32 = answer::ROOM_TOO_SMALL as u32;

#[test]
fn random_datagrams() {
    METHODS.into_iter().for_each(random_under);
}

fn random_under(addressing: Addressing) {
    let mut compared = Compared::new(addressing, 1);
    for seed in 0..SEEDS {
        for datagram in datagrams(addressing, seed, OF_A_SEED) {
            compared.datagram(&datagram);
        }
    }
    println!("random datagrams: {compared}");
    assert!(compared.layouts() >= 20_000);
    for number in NUMBERS {
        let times = compared.numbers[number as usize];
        assert!(times >= 200, "{number} is rare: {compared}");
    }
    for (step, times) in compared.steps.iter().enumerate() {
        assert!(*times >= 20_000, "step {step} is rare: {compared}");
    }
}

#[test]
fn every_cut() {
    for addressing in METHODS {
        let mut compared = Compared::new(addressing, 2);
        for datagram in datagrams(addressing, 1_000, CUT) {
            for cut in cuts(&datagram) {
                compared.datagram(cut);
            }
        }
        println!("cut datagrams: {compared}");
    }
}

/// Those that were made for the other method.
#[test]
fn datagrams_of_the_other_method() {
    for addressing in METHODS {
        let mut compared = Compared::new(addressing, 5);
        for datagram in datagrams(other(addressing), 3_000, OTHERS) {
            compared.datagram(&datagram);
        }
        println!("datagrams of the other method: {compared}");
        for number in NUMBERS {
            let times = compared.numbers[number as usize];
            assert!(times >= 50, "{number} is rare: {compared}");
        }
    }
}

#[test]
fn datagrams_made_by_hand() {
    let ranges = include_str!("../../tests/wire/datagrams.txt");
    let bins = include_str!("../../tests/wire/bins.txt");
    made_by_hand(Addressing::Ranges, ranges, 368);
    made_by_hand(Addressing::Bins, bins, 233);
}

/// Those of a text, which has so many, for a method. Under the other one they are
/// compared, too.
fn made_by_hand(addressing: Addressing, text: &str, count: usize) {
    let mut compared = Compared::new(addressing, 3);
    let mut under_other = Compared::new(other(addressing), 3);
    let all = parse(text).expect("the datagrams made by hand");
    assert_eq!(all.len(), count);
    for hand_made in &all {
        let datagram = &hand_made.datagram;
        let got = compared.layout_in(datagram, ENTRY_WORDS, LAID_WORDS);
        let wanted = u32::from(hand_made.number);
        assert_eq!(got, wanted, "line {}: both", hand_made.line);
        compared.datagram(datagram);
        under_other.datagram(datagram);
        if let Some(destination) = datagram.first_chunk() {
            written_again(addressing, u32::from_be_bytes(*destination), datagram);
        }
    }
    println!("datagrams made by hand: {compared}");
}

/// Begins a datagram and adds the messages of another to it, up to the first
/// that is refused or cannot be read. If its layout is sound and it has no other
/// options, it stands there again, byte for byte.
fn written_again(addressing: Addressing, destination: u32, datagram: &[u8]) {
    let mut sent = begin(&[0; wire::MAX_SIZE], destination);
    let (mut len, mut at, mut other) = (sent.len, wire::MIN_SIZE, false);
    while let Step::Read { message, next } = wire::step(addressing, datagram, at) {
        other |= matches!(
            message,
            Message::Handshake {
                options: Options::Other,
                ..
            }
        );
        sent = add(addressing, &sent.room, len, &message, datagram);
        if sent.number != 0 {
            break;
        }
        (len, at) = (sent.len, next);
    }
    let same = datagram == &sent.room[..len];
    if wire::layout(addressing, datagram, &mut Vec::new()).is_ok() && !other {
        assert!(
            same,
            "{datagram:02x?} written again: {:02x?}",
            &sent.room[..len]
        );
    }
}

/// Rooms of every length around the least ones.
#[test]
fn rooms_around_the_least() {
    for addressing in METHODS {
        let mut compared = Compared::new(addressing, 4);
        for datagram in datagrams(addressing, 2_000, 50) {
            for entries in [0, 1, 50, 98, 109, 110, 111, 200] {
                for found in [0, 1, 5, 6, 7, 20] {
                    let number = compared.layout_in(&datagram, entries, found);
                    let too_small = entries < 110 || found < 6;
                    assert_eq!(number == TOO_SMALL, too_small, "both");
                }
            }
        }
    }
}

/// Calls of the reader, compared.
struct Compared {
    addressing: Addressing,
    random: Random,
    /// How often each number was that of a layout.
    numbers: [usize; 12],
    /// How often a place had the end, a message, or what is refused.
    steps: [usize; 3],
}

impl Compared {
    fn new(addressing: Addressing, seed: u32) -> Self {
        Compared {
            addressing,
            random: Random::new(seed),
            numbers: [0; 12],
            steps: [0; 3],
        }
    }

    /// The layout of a datagram, what stands in it step by step, and what
    /// stands at some other places. A room is too small now and then.
    fn datagram(&mut self, datagram: &[u8]) {
        let entries = self.words_for(ENTRY_WORDS);
        let found = self.words_for(LAID_WORDS);
        self.layout_in(datagram, entries, found);
        let mut at = wire::MIN_SIZE;
        while let Some(next) = self.read_at(datagram, at) {
            at = next;
        }
        for _ in 0..4 {
            let at = match self.random.below(8) {
                0 => usize::MAX - self.random.place(50),
                _ => self.random.place(datagram.len() + 3),
            };
            self.read_at(datagram, at);
        }
    }

    /// How many words a room has that needs so many.
    fn words_for(&mut self, least: usize) -> usize {
        match self.random.below(40) {
            0 => self.random.place(least),
            1 => least - 1,
            2..12 => least + 1 + self.random.place(20),
            _ => least,
        }
    }

    fn layout_in(&mut self, datagram: &[u8], entries: usize, found: usize) -> u32 {
        let entries = self.random.long_words(entries);
        let found = self.random.long_words(found);
        let number = layout(self.addressing, datagram, &entries, &found);
        self.numbers[number as usize] += 1;
        number
    }

    fn read_at(&mut self, datagram: &[u8], at: usize) -> Option<usize> {
        let before = self.random.long_words(7);
        let before = before.try_into().expect("seven words");
        let (step, next) = read(self.addressing, datagram, at, &before);
        self.steps[step as usize] += 1;
        next
    }

    fn layouts(&self) -> usize {
        self.numbers.iter().sum()
    }
}

impl std::fmt::Display for Compared {
    fn fmt(&self, f: &mut std::fmt::Formatter) -> std::fmt::Result {
        write!(f, "{:?}: {} layouts, ", self.addressing, self.layouts())?;
        for number in NUMBERS {
            write!(f, "{number}: {}, ", self.numbers[number as usize])?;
        }
        let [ends, messages, refused] = self.steps;
        write!(
            f,
            "{messages} messages read, {ends} ends, {refused} refused"
        )
    }
}
