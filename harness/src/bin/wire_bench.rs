//! How fast the proved reader and writer of datagrams are, beside `second`'s: the
//! layout checks of some datagrams, and ten messages added to one, under ranges
//! and under bins.
//!
//! One process gives each job to all in turn, for some seconds, and the best time
//! of each counts. The table is printed; no number decides anything.

use harness::bench::{measure, timed, Job, Unit, NAMES};
use harness::numbers::numbers;
use harness::proved::wire::{self as proved, ENTRY_WORDS, LAID_WORDS};
use ppspp::calls;
use second::wire::{self, Addressing, Layout, Message, MAX_SIZE};
use std::hint::black_box;
use std::time::Duration;

/// How often a run does its work.
const TIMES: usize = 1_000;

/// How long it takes.
const RUN: Duration = Duration::from_secs(11);

fn main() {
    let ranges = Under(Addressing::Ranges, "");
    let bins = Under(Addressing::Bins, ", under bins");
    let jobs = vec![
        ranges.layout("2,044 one-byte messages", &[Message::Choke; 2_044]),
        ranges.layout("49 INTEGRITY", &integrity(49)),
        ranges.layout("9 INTEGRITY and DATA of 1,024 bytes", &chunk_messages()),
        ranges.layout("one HAVE", &[Message::Have { first: 5, last: 10 }]),
        ranges.add(ten_messages(5, 10)),
        bins.layout("2,044 one-byte messages", &[Message::Choke; 2_044]),
        bins.layout("49 INTEGRITY", &integrity(49)),
        bins.layout("55 INTEGRITY", &integrity(55)),
        bins.layout("9 INTEGRITY and DATA of 1,024 bytes", &chunk_messages()),
        bins.layout("one HAVE", &[Message::Have { first: 4, last: 7 }]),
        bins.add(ten_messages(4, 7)),
    ];
    measure("Datagrams", &NAMES, jobs, RUN);
}

/// A method, and how the names of its jobs end.
#[derive(Clone, Copy)]
struct Under(Addressing, &'static str);

/// Runs the work, and gives the time that all of it took.
fn repeated(mut work: impl FnMut()) -> Duration {
    timed(|| {
        for _ in 0..TIMES {
            work();
        }
    })
}

/// The bytes that hashes and chunks are taken from.
static SOURCE: [u8; 1_024] = [7; 1_024];

impl Under {
    /// The layout checks over the datagram of these messages.
    fn layout(self, name: &str, messages: &[Message]) -> Job<'static> {
        let Under(addressing, end) = self;
        let datagram = written(addressing, messages);
        let kind = match wire::layout(addressing, &datagram, &mut Vec::new()) {
            Ok(Layout::MessagesAndData { .. }) => 3,
            Ok(_) => 2,
            Err(number) => panic!("{name}: second refuses it with {number}"),
        };
        let for_second = datagram.clone();
        let method = addressing.number();
        let proved = move || {
            let (mut entries, mut found) = ([1; ENTRY_WORDS], [1; LAID_WORDS]);
            let time = repeated(|| {
                let datagram = black_box(&datagram);
                let number = proved::layout(method, datagram, &mut entries, &mut found);
                black_box((number, &entries, &found));
            });
            assert_eq!(found[0], kind);
            time
        };
        let second = move || {
            let mut nodes = Vec::with_capacity(ENTRY_WORDS / 2);
            repeated(|| {
                let layout = wire::layout(addressing, black_box(&for_second), &mut nodes);
                black_box((layout.is_ok(), &layout, &nodes));
            })
        };
        let name = format!("the layout of {name}{end}");
        Job::new(name, Unit::Nanoseconds(TIMES), proved, second)
    }

    /// A datagram begun and the messages added to it.
    fn add(self, messages: [Message; 10]) -> Job<'static> {
        let Under(addressing, end) = self;
        let wanted = written(addressing, &messages);
        let method = addressing.number();
        let for_second = wanted.clone();
        let in_numbers = messages.each_ref().map(|message| numbers(message, &SOURCE));
        let proved = move || {
            let (mut room, mut len) = ([1; MAX_SIZE], 0);
            let time = repeated(|| {
                (_, len) = calls::begin(&mut room, black_box(5));
                for message in black_box(&in_numbers) {
                    (_, len) = calls::add(&mut room, method, len, *message);
                }
                black_box((&room, &len));
            });
            assert_eq!(&room[..len], wanted);
            time
        };
        let second = move || {
            let (mut room, mut len) = ([1; MAX_SIZE], 0);
            let time = repeated(|| {
                len = wire::begin(&mut room, black_box(5)).unwrap_or(0);
                for message in black_box(&messages) {
                    let added = wire::add(&mut room, addressing, len, message, &SOURCE);
                    len = added.unwrap_or(0);
                }
                black_box((&room, &len));
            });
            assert_eq!(&room[..len], for_second);
            time
        };
        let name = format!("a datagram begun and 10 messages added{end}");
        Job::new(name, Unit::Nanoseconds(TIMES), proved, second)
    }
}

/// The datagram of these messages.
fn written(addressing: Addressing, messages: &[Message]) -> Vec<u8> {
    let mut room = vec![1; MAX_SIZE];
    let mut len = wire::begin(&mut room, 5).expect("a room of 2,048 bytes");
    for message in messages {
        let added = wire::add(&mut room, addressing, len, message, &SOURCE);
        len = added.expect("a sound message");
    }
    room.truncate(len);
    room
}

/// INTEGRITY of so many leaves.
fn integrity(count: u32) -> Vec<Message> {
    (0..count)
        .map(|chunk| Message::Integrity {
            first: chunk,
            last: chunk,
            hash: 0,
        })
        .collect()
}

/// A chunk with nine hashes.
fn chunk_messages() -> Vec<Message> {
    let mut messages = integrity(9);
    messages.push(Message::Data {
        first: 9,
        last: 9,
        time: 42,
        start: 0,
        len: 1_024,
    });
    messages
}

/// One of each kind but HANDSHAKE, which would be alone, and INTEGRITY three
/// times, of such a range; DATA is the last.
fn ten_messages(first: u32, last: u32) -> [Message; 10] {
    [
        Message::Have { first, last },
        Message::Request { first, last },
        Message::Cancel { first, last },
        Message::Ack {
            first,
            last,
            delay: 42,
        },
        Message::Choke,
        Message::Unchoke,
        Message::Integrity {
            first: 0,
            last: 3,
            hash: 0,
        },
        Message::Integrity {
            first: 4,
            last: 5,
            hash: 32,
        },
        Message::Integrity {
            first: 6,
            last: 6,
            hash: 64,
        },
        Message::Data {
            first: 7,
            last: 7,
            time: 42,
            start: 0,
            len: 1_024,
        },
    ]
}
