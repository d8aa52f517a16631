//! Random changes of what the search tries.

use crate::candidate::{pieces, Candidate};
use crate::kinds::{of_kind, RANGED};
use crate::scenes::{addressing, Scene, CALLING, CHANNEL, UNUSED};
use harness::packets::*;
use harness::random::Random;
use second::wire::{Addressing, MAX_SIZE, MIN_SIZE};

impl Candidate {
    /// One like it, with one to three changes; messages of the other one may go
    /// into it.
    pub fn changed(&self, random: &mut Random, other: &Candidate) -> Candidate {
        let mut changed = self.clone();
        for _ in 0..1 + random.below(3) {
            match random.below(10) {
                0 => changed.change_around(random),
                1 => changed.change_byte(random),
                _ => changed.change_messages(random, other),
            }
        }
        changed
    }

    /// Another destination, ID, store or order.
    fn change_around(&mut self, random: &mut Random) {
        match random.below(4) {
            0 => {
                let any = random.number();
                let destination = random.one_of(&[0, CHANNEL, CALLING, UNUSED, any]);
                *self = self.clone().to(destination);
            }
            1 => self.id = random.one_of(&[0, CHANNEL, UNUSED]),
            2 if self.scene != Scene::Short => {
                self.scene = random.one_of(&[Scene::Fresh, Scene::Full, Scene::Whole]);
            }
            _ => self.mixed = !self.mixed,
        }
    }

    /// Another byte somewhere, or an end somewhere.
    fn change_byte(&mut self, random: &mut Random) {
        if self.datagram.is_empty() {
            return;
        }
        let at = random.place(self.datagram.len());
        match random.below(4) {
            0 => self.datagram.truncate(at),
            1 => self.datagram[at] = random.below(12) as u8,
            _ => self.datagram[at] ^= 1 << random.below(8),
        }
    }

    /// Other messages. Nearly always they fit a datagram.
    fn change_messages(&mut self, random: &mut Random, other: &Candidate) {
        let mut list: Vec<Vec<u8>> = owned(&self.datagram);
        let (from, to) = some(random, list.len());
        match random.below(7) {
            0 => {
                let others = owned(&other.datagram);
                let (first, last) = some(random, others.len());
                list.splice(from..to, others[first..last].iter().cloned());
            }
            1 => repeat(random, &mut list, from, to),
            2 => drop(list.drain(from..to)),
            3 => list.insert(from, any_message(random)),
            4 => list[from..to].rotate_left((to - from) / 2),
            5 => {
                let kind = random.one_of(&RANGED);
                change_each(&mut list[from..to], |_, first, last| (kind, first, last));
            }
            _ => {
                let (first, last) = any_range(random);
                change_each(&mut list[from..to], |kind, _, _| (kind, first, last));
            }
        }
        self.datagram.truncate(MIN_SIZE);
        let long = random.one_in(64);
        for message in list {
            if long || self.datagram.len() + message.len() <= MAX_SIZE {
                self.datagram.extend(message);
            }
        }
    }
}

/// The messages of a datagram, and what is none.
fn owned(datagram: &[u8]) -> Vec<Vec<u8>> {
    pieces(datagram).into_iter().map(<[u8]>::to_vec).collect()
}

/// Some of so many that stand together: all, one, a few or any number.
fn some(random: &mut Random, count: usize) -> (usize, usize) {
    if count == 0 {
        return (0, 0);
    }
    let from = random.place(count);
    match random.below(4) {
        0 => (0, count),
        1 => (from, from + 1),
        2 => (from, count.min(from + 1 + random.place(6))),
        _ => (from, from + 1 + random.place(count - from)),
    }
}

/// Some of the messages again and again, until the datagram is full or as often as
/// it comes.
fn repeat(random: &mut Random, list: &mut Vec<Vec<u8>>, from: usize, to: usize) {
    let run = list[from..to].to_vec();
    let size: usize = run.iter().map(Vec::len).sum();
    let all: usize = list.iter().map(Vec::len).sum();
    if size == 0 {
        return;
    }
    let most = MAX_SIZE.saturating_sub(MIN_SIZE + all) / size;
    let times = match random.below(2) {
        0 => most,
        _ => random.place(most + 1),
    };
    let again = run.iter().cycle().take(run.len() * times).cloned();
    list.splice(to..to, again);
}

/// Changes the kind and the range of each message that has a range alone, or a
/// delay besides.
fn change_each(list: &mut [Vec<u8>], change: impl Fn(u8, u32, u32) -> (u8, u32, u32)) {
    for message in list {
        let is_whole =
            RANGED.contains(&message[0]) && message.len() == of_kind(message[0], 0, 0).len();
        if is_whole {
            let (first, last) = ends(message);
            let (kind, first, last) = change(message[0], first, last);
            *message = of_kind(kind, first, last);
        }
    }
}

/// The ends of a message's range; of a bin itself and 0, whose sum it is.
fn ends(message: &[u8]) -> (u32, u32) {
    let end = |at: usize| u32::from_be_bytes(std::array::from_fn(|i| message[at + i]));
    match addressing() {
        Addressing::Bins => (end(1), 0),
        Addressing::Ranges => (end(1), end(5)),
    }
}

/// A range, nearly always of chunks of the pack.
fn any_range(random: &mut Random) -> (u32, u32) {
    let [one, other] = [random.below(512), random.below(512)];
    match random.below(16) {
        0..4 => (0, 511),
        4 => (one, one),
        5 => (one / 32 * 32, one / 32 * 32 + 31),
        6 => (0, random.one_of(&[512, u32::MAX])),
        7 => (one.max(other), one.min(other)),
        8..10 => (random.below(4), 511 - random.below(4)),
        _ => (one.min(other), one.max(other)),
    }
}

/// A message of any kind but HANDSHAKE.
fn any_message(random: &mut Random) -> Vec<u8> {
    let (first, last) = any_range(random);
    match random.below(8) {
        0 => vec![CHOKE],
        1 => vec![UNCHOKE],
        2 | 3 => {
            let node = random.below(1_023).into();
            integrity(addressing(), node, &random.digest())
        }
        4 => data(addressing(), first, first, 0, &[7; 1_024]),
        _ => of_kind(random.one_of(&RANGED), first, last),
    }
}
