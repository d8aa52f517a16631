//! Datagrams that are composed in a store's reply room: begun, then lengthened
//! message by message.

use crate::arriving::clock;
use crate::calls::{Call, Told};
use crate::packets::{self, other};
use crate::random::Random;
use second::wire::{self, Addressing, Message, Step};
use second::wire_cases::{messages, LONGEST};

/// Numbers of no method.
pub const BAD_METHODS: [u32; 6] = [1, 3, 4, 5, 256, u32::MAX];

/// What is known of a reply room, and what is to be added there.
pub struct Composing {
    /// The method under which messages are made and mostly added.
    addressing: Addressing,
    /// The length of the datagram so far: what the last begin or add gave, or
    /// the length of the reply that is to be lengthened. It is stale where a
    /// reply was written since.
    so_far: usize,
    /// The length of the last reply of another call.
    reply: usize,
    /// A datagram whose messages are to be added, and the place of the next.
    model: Option<(Vec<u8>, usize)>,
}

impl Composing {
    /// Nothing yet.
    pub fn new(addressing: Addressing) -> Self {
        Composing {
            addressing,
            so_far: 0,
            reply: 0,
            model: None,
        }
    }

    /// Keeps the length of what a call wrote into the reply room.
    pub fn keep(&mut self, call: &Call, told: &Told) {
        if call.composes() && told.number == 0 {
            self.so_far = told.len;
        } else if told.len > 0 {
            self.reply = told.len;
        }
    }

    /// The length of the datagram so far, perhaps stale.
    pub fn so_far(&self) -> usize {
        self.so_far
    }

    /// Begins a datagram to the destination of this one, whose messages are to
    /// be added.
    pub fn begin(&mut self, model: Vec<u8>) -> Call {
        let destination = model.first_chunk().map_or(0, |at| u32::from_be_bytes(*at));
        self.model = Some((model, wire::MIN_SIZE));
        Call::Begin { destination }
    }

    /// The messages of this one are to be added behind the last reply.
    pub fn behind_reply(&mut self, model: Vec<u8>) {
        self.so_far = self.reply;
        self.model = Some((model, wire::MIN_SIZE));
    }

    /// Whether there are messages to be added.
    pub fn is_under_way(&self) -> bool {
        self.model.is_some()
    }

    /// The next add, in some cases of another message, or of one that comes once
    /// more; none at the end, or where the rest is given up.
    pub fn next_add(&mut self, random: &mut Random) -> Option<Call> {
        if random.one_in(20) {
            return Some(self.any_add(random));
        }
        let (model, mut at) = self.model.take()?;
        let Step::Read { message, next } = wire::step(self.addressing, &model, at) else {
            return None;
        };
        if random.one_in(32) {
            return None;
        }
        if !random.one_in(12) {
            at = next;
        }
        let source = model.clone();
        self.model = Some((model, at));
        Some(Call::Add {
            method: self.addressing.number(),
            len: self.so_far,
            message,
            source,
        })
    }

    /// An add of any message, sound or not: to the datagram so far, to the last
    /// reply, or to any number of bytes; now and then under the other method, or
    /// under none.
    pub fn any_add(&self, random: &mut Random) -> Call {
        let (message, source) = match random.below(12) {
            0 => filling(self.addressing, random, self.so_far),
            1 => data(random),
            _ => messages(self.addressing, random.number().into(), 1).remove(0),
        };
        let len = match random.below(3) {
            0 => self.reply,
            _ => self.so_far,
        };
        Call::Add {
            method: method_told(random, self.addressing),
            len: length_told(random, len),
            message,
            source,
        }
    }
}

/// The number of a method; now and then of the other one, or of none.
pub fn method_told(random: &mut Random, addressing: Addressing) -> u32 {
    match random.below(16) {
        0 => random.one_of(&BAD_METHODS),
        1 => other(addressing).number(),
        _ => addressing.number(),
    }
}

/// DATA that fills up a datagram of such a length, or is a byte too long for it.
fn filling(addressing: Addressing, random: &mut Random, so_far: usize) -> (Message, Vec<u8>) {
    let head = packets::data(addressing, 0, 0, 0, &[]).len();
    let size = (wire::MAX_SIZE + random.place(2)).saturating_sub(so_far + head);
    data_of(random, size)
}

/// DATA with any range and any chunk, now and then a long one.
pub fn data(random: &mut Random) -> (Message, Vec<u8>) {
    let size = match random.below(8) {
        0 => random.place(LONGEST),
        _ => random.one_of(&[0, 1, 3, 40, 1_024]),
    };
    data_of(random, size)
}

/// DATA with any range and so many bytes.
fn data_of(random: &mut Random, len: usize) -> (Message, Vec<u8>) {
    let (first, last) = two_numbers(random);
    let data = Message::Data {
        first,
        last,
        time: clock(random),
        start: 0,
        len,
    };
    (data, random.bytes(len))
}

/// One number twice in half of the cases; else the next one up or down, one that
/// differs in a bit, one of the borders, or any.
fn two_numbers(random: &mut Random) -> (u32, u32) {
    let first = match random.below(4) {
        0 => random.one_of(&[0, u32::MAX]),
        1 => random.number(),
        _ => random.below(512),
    };
    let last = match random.below(10) {
        0..5 => first,
        5 => first.wrapping_add(1),
        6 => first.wrapping_sub(1),
        7 => first ^ 1 << random.below(32),
        8 => random.one_of(&[0, u32::MAX]),
        _ => random.number(),
    };
    (first, last)
}

/// The length of a datagram, or in 1 of 8 cases another one.
pub fn length_told(random: &mut Random, len: usize) -> usize {
    match random.below(64) {
        0 => random.place(8),
        1 => len.saturating_sub(1 + random.place(10)),
        2 => len + 1 + random.place(10),
        3 => 2_049 + random.place(1_000),
        4 => usize::MAX - random.place(50),
        5..8 => random.place(LONGEST),
        _ => len,
    }
}
