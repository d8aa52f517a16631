//! A named trace, written line by line with what is wanted for each.

use super::Named;
use crate::hex;
use crate::packets::*;
use crate::traces::pack::Pack;
use std::ops::RangeInclusive;

/// The peer's channel number of the first channel in most traces.
pub const PEER: u32 = 0x11;

/// Seven chunks, the last of 1,018 bytes: the pack that RFC 7574 draws.
pub fn seven() -> Pack {
    pattern(7_162)
}

/// Three bytes: one chunk, whose hash is FIPS 180-4's first example.
pub fn abc() -> Pack {
    Pack::of(b"abc".to_vec())
}

/// A pack of a length, without a short period.
pub fn pattern(length: u32) -> Pack {
    let byte = |i| ((i * 131 + i / 251) % 253) as u8;
    Pack::of((0..length).map(byte).collect())
}

/// The chunks that an ACK names: the longest run of held ones around the chunk that
/// is taken, that one held too (02, No. 2).
pub type Run = RangeInclusive<u32>;

/// A trace so far.
pub struct Script {
    pub pack: Pack,
    input: Vec<u8>,
    wanted: Vec<u8>,
    /// The ID of the next channel.
    next_id: u32,
}

impl Script {
    /// Line one for a pack's order.
    pub fn new(pack: Pack) -> Self {
        let mut script = Script::without_order(pack);
        let line = script.pack.order_line();
        script.put(line.as_bytes());
        script
    }

    /// The same, and a channel with ID 1 open to the peer's `PEER`.
    pub fn opened(pack: Pack) -> Self {
        let mut script = Script::new(pack);
        script.open(PEER);
        script
    }

    /// No line.
    pub fn without_order(pack: Pack) -> Self {
        Script {
            pack,
            input: Vec::new(),
            wanted: Vec::new(),
            next_id: 1,
        }
    }

    /// A line that is not answered.
    pub fn put(&mut self, line: &[u8]) {
        self.input.extend(line);
        self.input.push(b'\n');
    }

    /// Drops the last line feed.
    pub fn drop_line_feed(&mut self) {
        assert_eq!(self.input.pop(), Some(b'\n'));
    }

    /// A line and what is wanted for it.
    pub fn line(&mut self, line: impl AsRef<[u8]>, wanted: &str) {
        self.put(line.as_ref());
        self.want(wanted);
    }

    fn want(&mut self, wanted: &str) {
        self.wanted.extend(wanted.as_bytes());
        self.wanted.push(b'\n');
    }

    /// Messages to a channel at clock 0, which get a number and no reply.
    pub fn take(&mut self, number: u8, destination: u32, messages: &[&[u8]]) {
        self.datagram(number, &to(destination, messages));
    }

    /// The same, whole.
    pub fn datagram(&mut self, number: u8, datagram: &[u8]) {
        self.line(frame(0, datagram), &format!("{number:02x}"));
    }

    /// A peer opens a channel: its HANDSHAKE, and ours back.
    pub fn open(&mut self, source: u32) {
        let options = fixed(&self.pack.root);
        let reply = handshake(self.next_id, &options);
        let wanted = format!("00{source:08x}{}", hex::encode(&reply));
        self.line(frame(0, &to(0, &[&handshake(source, &options)])), &wanted);
        self.next_id += 1;
    }

    /// A channel is closed.
    pub fn close(&mut self, id: u32) {
        self.take(0, id, &[&closing()]);
    }

    /// The INTEGRITY messages of nodes, with their right hashes.
    pub fn hashes(&self, nodes: &[u64]) -> Vec<u8> {
        let each = nodes
            .iter()
            .map(|&node| node_hash(node, &self.pack.hash(node)));
        each.collect::<Vec<_>>().concat()
    }

    /// DATA with a right chunk and the time 0.
    pub fn data(&self, chunk: u32) -> Vec<u8> {
        data(chunk, chunk, 0, self.pack.chunk(chunk))
    }

    /// The same with its first bit changed.
    pub fn damaged(&self, chunk: u32) -> Vec<u8> {
        let mut bytes = self.pack.chunk(chunk).to_vec();
        bytes[0] ^= 0x80;
        data(chunk, chunk, 0, &bytes)
    }

    /// A right chunk on channel 1 with the hashes of these nodes, which is taken
    /// and acknowledged by a run.
    pub fn stored(&mut self, chunk: u32, run: Run, nodes: &[u64]) {
        let hashes = self.hashes(nodes);
        self.acknowledged(1, PEER, chunk, run, &[&hashes]);
    }

    /// A right chunk behind these messages, which is taken and acknowledged by a
    /// run.
    pub fn acknowledged(&mut self, id: u32, peer: u32, chunk: u32, run: Run, messages: &[&[u8]]) {
        let datagram = to(id, &[&messages.concat(), &self.data(chunk)]);
        self.line(frame(0, &datagram), &ack_line(peer, run, 0));
    }

    /// A right chunk on channel 1 with the hashes of these nodes, refused.
    pub fn refused(&mut self, number: u8, chunk: u32, nodes: &[u64]) {
        let hashes = self.hashes(nodes);
        let data = self.data(chunk);
        self.take(number, 1, &[&hashes, &data]);
    }

    /// The trace, with the closing line that is wanted.
    pub fn named(
        mut self,
        closing: &str,
        name: &'static str,
        shows: &'static str,
        words: &'static str,
    ) -> Named {
        self.want(closing);
        Named {
            name,
            shows,
            words,
            input: self.input,
            wanted: self.wanted,
        }
    }
}

/// A clock and a datagram.
pub fn frame(clock: u64, datagram: &[u8]) -> String {
    format!("{clock:016x}{}", hex::encode(datagram))
}

/// The answer for a chunk that is taken: an ACK that names a run.
pub fn ack_line(peer: u32, run: Run, delay: u64) -> String {
    let (first, last) = run.into_inner();
    format!("00{peer:08x}02{first:08x}{last:08x}{delay:016x}")
}

/// The nodes whose hashes must come with a chunk of 32 where the even ones come in
/// rising order, and each odd one behind the even one before it.
pub fn least_of_32(chunk: u32) -> Vec<u64> {
    let leaf = 2 * u64::from(chunk);
    match chunk {
        0 => vec![2, 5, 11, 23, 47],
        // Even chunks need the leaf of the next one, and whatever is not yet
        // trusted above it.
        16 => vec![34, 37, 43, 55],
        8 | 24 => vec![leaf + 2, leaf + 5, leaf + 11],
        4 | 12 | 20 | 28 => vec![leaf + 2, leaf + 5],
        even if even % 2 == 0 => vec![leaf + 2],
        _ => vec![],
    }
}
