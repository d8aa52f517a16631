//! The program against 01's words and against the list of traps, whose numbers
//! the tests give. All answers are worked out by hand.

mod datagrams;
mod lines;

use super::*;
use crate::packets::*;

/// SHA-256 of "abc" (FIPS 180-4's example): the root of a pack of one chunk.
const ABC: &str = "ba7816bf8f01cfea414140de5dae2223b00361a396177a9cb410ff61f20015ad";

/// 01's fixed options around that root.
fn abc_options() -> String {
    format!("00010101020020{ABC}0301040206020900000400ff")
}

/// The answer to an input.
fn answer(input: &[u8]) -> String {
    let mut output = Vec::new();
    replay(input, &mut output).unwrap();
    String::from_utf8(output).unwrap()
}

/// Line one for the pack "abc".
fn abc() -> String {
    format!("{ABC}00000003\n")
}

/// A datagram at a clock, as a line.
fn line(clock: u64, datagram: &[u8]) -> String {
    format!("{clock:016x}{}\n", hex::encode(datagram))
}

/// The line with which a peer opens a channel for the pack "abc".
fn opening(source: u32) -> String {
    format!("{:016x}0000000000{source:08x}{}\n", 0, abc_options())
}

/// The answer to it: our HANDSHAKE.
fn opened(source: u32, id: u32) -> String {
    format!("00{source:08x}00{id:08x}{}\n", abc_options())
}
