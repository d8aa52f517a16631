//! Long inputs for the replay program, to measure its speed with.

use crate::packets::*;
use crate::traces::pack::Pack;
use crate::{hex, tree};
use std::io::{self, Write};

/// What a long input is made of.
#[derive(Clone, Copy, Debug, PartialEq, Eq)]
pub enum Kind {
    /// Datagrams of 2,048 bytes whose last message is refused with 2.
    Layout,
    /// The 32 chunks of a pack with all hashes, again and again.
    Taken,
}

impl Kind {
    /// The kind of a name.
    pub fn named(name: &str) -> Option<Kind> {
        match name {
            "layout" => Some(Kind::Layout),
            "taken" => Some(Kind::Taken),
            _ => None,
        }
    }
}

/// Writes line one, then lines until there are at least so many bytes.
pub fn write(kind: Kind, bytes: u64, mut output: impl Write) -> io::Result<()> {
    let pack = pack();
    let datagrams = match kind {
        Kind::Layout => layouts(),
        Kind::Taken => chunks(&pack),
    };
    let lines: Vec<Vec<u8>> = datagrams.iter().map(|datagram| line(datagram)).collect();
    let opening = line(&to(0, &[&handshake(7, &fixed(&pack.root))]));
    let front = format!("{}\n", pack.order_line()).into_bytes();
    let mut written = 0;
    for line in [&front, &opening].into_iter().chain(lines.iter().cycle()) {
        if written >= bytes {
            break;
        }
        output.write_all(line)?;
        written += line.len() as u64;
    }
    output.flush()
}

/// 32 chunks.
fn pack() -> Pack {
    let byte = |i: u32| ((i * 131 + i / 251) % 253) as u8;
    Pack::of((0..32_768).map(byte).collect())
}

/// A datagram at clock 0.
fn line(datagram: &[u8]) -> Vec<u8> {
    let mut line = vec![b'0'; 16];
    hex::append(&mut line, datagram);
    line.push(b'\n');
    line
}

/// To the open channel: one-byte messages and a refused type, ranges and one
/// whose first chunk is above its last, and nodes of which the last comes twice.
fn layouts() -> Vec<Vec<u8>> {
    let hash = |chunk| integrity(chunk, chunk, &[9; 32]);
    let nodes: Vec<u8> = (0..48).flat_map(hash).collect();
    let haves = have(0, 31).repeat(226);
    vec![
        to(1, &[&[10; 2043], &REFUSED]),
        to(1, &[&CHOKE, &haves, &have(1, 0)]),
        to(1, &[&[11; 35], &nodes, &hash(47)]),
    ]
}

/// Each chunk as a store writes it.
fn chunks(pack: &Pack) -> Vec<Vec<u8>> {
    let datagram = |chunk| {
        let nodes = tree::sending_order(pack.count(), chunk).into_iter();
        let hashes: Vec<u8> = nodes
            .flat_map(|node| node_hash(node, &pack.hash(node)))
            .collect();
        to(1, &[&hashes, &data(chunk, chunk, 0, pack.chunk(chunk))])
    };
    (0..pack.count()).map(datagram).collect()
}

#[cfg(test)]
mod tests {
    use super::*;
    use crate::replay::replay;

    /// An input of 200,000 bytes, and the lines that answer it.
    fn made(kind: Kind) -> (Vec<u8>, Vec<String>) {
        let mut input = Vec::new();
        write(kind, 200_000, &mut input).unwrap();
        let mut output = Vec::new();
        replay(&input[..], &mut output).unwrap();
        let output = String::from_utf8(output).unwrap();
        (input, output.lines().map(str::to_string).collect())
    }

    #[test]
    fn inputs_are_as_long_as_asked() {
        for kind in [Kind::Layout, Kind::Taken] {
            let (input, _) = made(kind);
            assert!((200_000..205_000).contains(&input.len()));
            assert!(input.ends_with(b"\n"));
        }
    }

    #[test]
    fn every_layout_is_refused_at_its_end() {
        let (input, output) = made(Kind::Layout);
        let lines: Vec<_> = input.split(|&byte| byte == b'\n').collect();
        assert!(lines[2..lines.len() - 1]
            .iter()
            .all(|line| line.len() == 4_112));
        let [first, numbers @ .., closing] = &output[..] else {
            panic!("{output:?}");
        };
        assert!(first.starts_with("0000000007"));
        assert!(numbers.len() > 40);
        assert!(numbers.iter().all(|number| number == "02"));
        assert_eq!(closing, "f00000");
        // Without their last message they are taken, or lie past the pack.
        for (datagram, (last, number)) in layouts().iter().zip([(1, 0), (9, 0), (41, 7)]) {
            let line = line(&datagram[..datagram.len() - last]);
            let mut session = crate::replay::Session::start(lines[0]).unwrap();
            session.answer(lines[1]);
            assert_eq!(session.answer(line.trim_ascii_end()).0, number);
        }
    }

    #[test]
    fn every_chunk_is_taken() {
        let (_, output) = made(Kind::Taken);
        let [_, acks @ .., closing] = &output[..] else {
            panic!("{output:?}");
        };
        assert!(acks.len() > 64);
        for (place, ack) in acks.iter().enumerate() {
            // The first time in order, so from 0 on; then the pack is whole.
            let last = place.min(31);
            assert_eq!(*ack, format!("00000000070200000000{last:08x}{:016x}", 0));
        }
        assert_eq!(closing, "ff0020");
    }

    #[test]
    fn kinds_have_names() {
        assert_eq!(Kind::named("layout"), Some(Kind::Layout));
        assert_eq!(Kind::named("taken"), Some(Kind::Taken));
        assert_eq!(Kind::named("other"), None);
    }
}
