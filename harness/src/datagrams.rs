//! The proved reader and writer of datagrams and `second`'s side by side: each
//! call goes to both, and then the answers and every word and byte of the rooms
//! must be the same. What is wanted is what `second` gives. A difference panics
//! with the datagram in hexadecimal and what both gave.

use crate::numbers::{self, numbers};
use crate::proved::wire::{self as proved, ENTRY_WORDS, LAID_WORDS};
use ppspp::calls::{self, Numbers};
use second::wire::{self, Addressing, Layout, Message, Options, Step};
use second::{answer, hex};
use std::fmt::Debug;

/// The words of a message that was read.
pub type Found = [u64; 7];

/// Has both check the layout of a datagram, with such rooms for the entries and
/// for what is found, and gives the number.
pub fn layout(addressing: Addressing, datagram: &[u8], entries: &[u64], found: &[u64]) -> u32 {
    let mut got = Laid::before(entries, found);
    let method = addressing.number();
    got.number = proved::layout(method, datagram, &mut got.entries, &mut got.found);
    let wanted = second_layout(addressing, datagram, entries, found);
    let about = || format!("{} under {addressing:?}", hex::encode(datagram));
    compare("layout", about, &got, &wanted);
    wanted.number
}

/// Has both read what stands at a place, with such words before; gives 0 for its
/// end, 1 for a message and 2 for what is refused, and the place behind a message.
pub fn read(
    addressing: Addressing,
    datagram: &[u8],
    at: usize,
    before: &Found,
) -> (u32, Option<usize>) {
    let mut found = *before;
    let step = calls::read(datagram, addressing.number(), at, &mut found);
    let (wanted, next) = match wire::step(addressing, datagram, at) {
        Step::End => ((0, *before), None),
        Step::Read { message, next } => {
            let words = numbers::found(&message, datagram, next);
            ((1, words), Some(next))
        }
        Step::Refused => ((2, *before), None),
    };
    let about = || format!("{} at {at} under {addressing:?}", hex::encode(datagram));
    compare("read", about, &(step, found), &wanted);
    (step, next)
}

/// Has both begin a datagram in such a room.
pub fn begin(room: &[u8], destination: u32) -> Sent {
    let got = Sent::after(room, |room| calls::begin(room, destination));
    let wanted = Sent::after_second(room, |room| wire::begin(room, destination));
    compare("begin", || format!("to {destination}"), &got, &wanted);
    wanted
}

/// Has both add a message to the datagram in the first `len` bytes of such a
/// room.
pub fn add(
    addressing: Addressing,
    room: &[u8],
    len: usize,
    message: &Message,
    source: &[u8],
) -> Sent {
    let numbers = numbers(message, source);
    add_as(addressing, room, len, numbers, message, source)
}

/// The same, with the numbers in which the proved code is given the message.
pub fn add_as(
    addressing: Addressing,
    room: &[u8],
    len: usize,
    numbers: Numbers,
    message: &Message,
    source: &[u8],
) -> Sent {
    let method = addressing.number();
    let got = Sent::after(room, |room| calls::add(room, method, len, numbers));
    let wanted = Sent::after_second(room, |room| {
        wire::add(room, addressing, len, message, source)
    });
    let about = || {
        let so_far = hex::encode(&room[..len.min(room.len())]);
        let size = room.len();
        format!(
            "{so_far} of {len} bytes in {size}, {message:?} as {numbers:?} under {addressing:?}"
        )
    };
    compare("add", about, &got, &wanted);
    wanted
}

/// What the layout checks leave.
#[derive(Debug, PartialEq, Eq)]
struct Laid {
    number: u32,
    entries: Vec<u64>,
    found: Vec<u64>,
}

impl Laid {
    /// The rooms as they are before, with 0 for the number.
    fn before(entries: &[u64], found: &[u64]) -> Self {
        Laid {
            number: 0,
            entries: entries.to_vec(),
            found: found.to_vec(),
        }
    }
}

/// What beginning and adding leave: the number, the datagram's length, 0 after a
/// refusal, and the room.
#[derive(Debug, PartialEq, Eq)]
pub struct Sent {
    pub number: u32,
    pub len: usize,
    pub room: Vec<u8>,
}

impl Sent {
    /// After a call of the proved code in such a room.
    fn after(before: &[u8], call: impl FnOnce(&mut [u8]) -> calls::Answered) -> Self {
        let mut room = before.to_vec();
        let (number, len) = call(&mut room);
        Sent { number, len, room }
    }

    /// After one of `second`.
    fn after_second(before: &[u8], call: impl FnOnce(&mut [u8]) -> Result<usize, u8>) -> Self {
        Sent::after(before, |room| match call(room) {
            Ok(len) => (0, len),
            Err(number) => (number.into(), 0),
        })
    }
}

/// `second` keeps the entries in a vector of its own and gives what it finds as
/// a value, so only here can their rooms be too small.
fn second_layout(addressing: Addressing, datagram: &[u8], entries: &[u64], found: &[u64]) -> Laid {
    let mut laid = Laid::before(entries, found);
    if entries.len() < ENTRY_WORDS || found.len() < LAID_WORDS {
        laid.number = answer::ROOM_TOO_SMALL.into();
        return laid;
    }
    let mut nodes = Vec::new();
    let layout = wire::layout(addressing, datagram, &mut nodes);
    let words: Vec<u64> = nodes
        .into_iter()
        .flat_map(|(node, place)| [node, place as u64])
        .collect();
    laid.entries[..words.len()].copy_from_slice(&words);
    match layout {
        Ok(layout) => laid.found[..LAID_WORDS].copy_from_slice(&layout_words(&layout, words.len())),
        Err(number) => laid.number = number.into(),
    }
    laid
}

/// A layout in the proved code's words, with so many words of entries.
fn layout_words(layout: &Layout, entries: usize) -> [u64; LAID_WORDS] {
    let entries = entries as u64;
    match *layout {
        Layout::HandshakeAlone { source, options } => {
            let (kind, root) = match options {
                Options::Fixed { root } => (1, root as u64),
                Options::EndOnly => (2, 0),
                Options::Other => (0, 0),
            };
            [1, source.into(), kind, root, 0, entries]
        }
        Layout::Messages => [2, 0, 0, 0, 0, entries],
        Layout::MessagesAndData {
            chunk,
            time,
            start,
            len,
        } => [3, chunk.into(), time, start as u64, len as u64, entries],
    }
}

fn compare<T: PartialEq + Debug>(call: &str, about: impl FnOnce() -> String, got: &T, wanted: &T) {
    if got != wanted {
        let about = about();
        panic!("{call} of {about}:\nthe proved code gives {got:?},\nwanted is {wanted:?}");
    }
}
