//! A store, its rooms, and the ID for the next channel.

use super::{BAD_LINE, MOST_DIGITS, NOT_WHOLE, WHOLE};
use crate::answer;
use crate::channel::{self, Outcome, Phase, Rooms, Sizes, State};
use crate::hex;
use crate::tree;
use crate::wire::Addressing;

/// The longest pack that the program takes.
pub const MOST_LENGTH: u32 = 32_768;

/// The digits of line one: the root, then the length.
const FIRST_DIGITS: usize = 72;
/// The digits of a clock.
const CLOCK_DIGITS: usize = 16;

/// A started store.
pub struct Session {
    state: State,
    /// Passed with each datagram; rises by one with each channel opened.
    id: u32,
    chunks: Vec<u8>,
    map: Vec<u32>,
    hashes: Vec<u32>,
    trusted: Vec<u32>,
    has: Vec<u32>,
    wants: Vec<u32>,
    reply: Vec<u8>,
    /// The bytes of a line.
    frame: Vec<u8>,
}

impl Session {
    /// A store under the order of line one; none if the line is bad.
    pub fn start(line: &[u8]) -> Option<Self> {
        if line.len() != FIRST_DIGITS {
            return None;
        }
        let mut frame = Vec::new();
        hex::decode(line, &mut frame)?;
        let (root, length) = frame.split_first_chunk()?;
        let length = u32::from_be_bytes(*length.first_chunk()?);
        if length > MOST_LENGTH {
            return None;
        }
        let mut session = Session::with_rooms(Sizes::of(length));
        let (state, mut rooms, _) = session.lend();
        let method = Addressing::Ranges.number();
        let outcome = channel::start(state, &mut rooms, root, length, method);
        (outcome.number == answer::DONE).then_some(session)
    }

    /// Rooms of these sizes, and no store yet.
    fn with_rooms(sizes: Sizes) -> Self {
        Session {
            state: State::default(),
            id: 1,
            chunks: vec![0; sizes.chunks],
            map: vec![0; sizes.map],
            hashes: vec![0; sizes.hashes],
            trusted: vec![0; sizes.trusted],
            has: vec![0; sizes.has],
            wants: vec![0; sizes.wants],
            reply: vec![0; sizes.reply],
            frame: Vec::with_capacity(MOST_DIGITS / 2),
        }
    }

    /// The state, the rooms, and the bytes of the line.
    fn lend(&mut self) -> (&mut State, Rooms<'_>, &[u8]) {
        let rooms = Rooms {
            chunks: &mut self.chunks,
            map: &mut self.map,
            hashes: &mut self.hashes,
            trusted: &mut self.trusted,
            has: &mut self.has,
            wants: &mut self.wants,
            reply: &mut self.reply,
        };
        (&mut self.state, rooms, &self.frame)
    }

    /// The number and the reply for a line behind line one. Of a line that is
    /// too long, the front with one digit too many is enough.
    pub fn answer(&mut self, line: &[u8]) -> (u8, &[u8]) {
        if !(CLOCK_DIGITS..=MOST_DIGITS).contains(&line.len()) {
            return (BAD_LINE, &[]);
        }
        self.frame.clear();
        if hex::decode(line, &mut self.frame).is_none() {
            return (BAD_LINE, &[]);
        }
        let id = self.id;
        let (state, mut rooms, frame) = self.lend();
        let (clock, datagram) = frame.split_at(CLOCK_DIGITS / 2);
        let clock = clock
            .iter()
            .fold(0, |clock, &byte| clock << 8 | u64::from(byte));
        let taken = channel::take(state, &mut rooms, clock, id, datagram);
        let Outcome { number, length, .. } = taken;
        // A datagram to channel 0 is done only where it opens a channel.
        if number == answer::DONE && datagram.starts_with(&[0; 4]) {
            self.id = id.wrapping_add(1);
        }
        (number, &self.reply[..length])
    }

    /// The bytes of the closing line.
    pub fn closing(&self) -> [u8; 3] {
        let held = channel::ask(&self.state, &self.map);
        // At most 32.
        let [.., high, low] = held.count.to_be_bytes();
        [if held.whole { WHOLE } else { NOT_WHOLE }, high, low]
    }

    /// The ID of the next channel.
    pub fn next_id(&self) -> u32 {
        self.id
    }

    /// The ID and the peer's source channel of each open channel, by row.
    pub fn open_channels(&self) -> Vec<(u32, u32)> {
        let rows = self.state.rows.iter();
        let open = rows.filter(|row| row.phase == Phase::Open);
        open.map(|row| (row.id, row.peer)).collect()
    }

    /// Whether a node is trusted.
    pub fn trusts(&self, node: u64) -> bool {
        self.trusted[node as usize / 32] >> (node % 32) & 1 == 1
    }

    /// Whether a chunk is held.
    pub fn holds(&self, chunk: u32) -> bool {
        self.map[chunk as usize / 32] >> (chunk % 32) & 1 == 1
    }

    /// The number of chunks.
    pub fn count(&self) -> u32 {
        tree::chunk_count(self.state.length)
    }
}
