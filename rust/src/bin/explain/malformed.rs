//! Which rule of 01's table a message breaks that cannot be read.

use crate::naming::Naming;
use crate::options;
use crate::words::{count, range};
use ppspp::{Bin, Node};

/// The rule that is broken by what stands at a place of a datagram, in words; none if it is none of these.
pub fn rule(naming: Naming, datagram: &[u8], place: usize) -> Option<String> {
    let (&kind, body) = datagram.get(place..)?.split_first()?;
    // The bytes of a bin, or of a range.
    let named = if naming.is_bins() { 4 } else { 8 };
    let (name, least) = match kind {
        0 => ("HANDSHAKE", 4),
        1 => ("DATA", named + 8),
        2 => ("ACK", named + 8),
        3 => ("HAVE", named),
        4 => ("INTEGRITY", named + 32),
        8 => ("REQUEST", named),
        9 => ("CANCEL", named),
        10 | 11 => return None,
        _ => return Some(format!("type {kind} is unknown")),
    };
    if body.len() < least {
        let (came, least) = (count(body.len()), count(least));
        let more = if kind == 1 { " and a chunk" } else { "" };
        return Some(format!(
            "{name} is cut short: {came} of {least} bytes{more} stand behind its type"
        ));
    }
    match kind {
        0 => options::walk(&body[4..]).err(),
        _ if naming.is_bins() => bin_rule(kind, name, body),
        _ => range_rule(kind, name, body),
    }
}

/// The rule that is broken by the bin of a message, which is not cut short.
fn bin_rule(kind: u8, name: &str, body: &[u8]) -> Option<String> {
    let bin = Bin(u32::from_be_bytes(*body.first_chunk()?));
    if matches!(kind, 1 | 2 | 4) && [Bin::EMPTY, Bin::EVERYTHING].contains(&bin) {
        let others = "only HAVE, REQUEST and CANCEL may be";
        return Some(format!("{name} is of {bin}, as {others}"));
    }
    let one = bin.0.is_multiple_of(2);
    (kind == 1 && !one).then(|| format!("DATA is of {bin}, not of one chunk"))
}

/// The rule that is broken by the range of a message, which is not cut short.
fn range_rule(kind: u8, name: &str, body: &[u8]) -> Option<String> {
    let (first, rest) = body.split_first_chunk()?;
    let (first, last) = (
        u32::from_be_bytes(*first),
        u32::from_be_bytes(*rest.first_chunk()?),
    );
    if first > last {
        return Some(format!(
            "the first chunk of {name}, {first}, is above the last, {last}"
        ));
    }
    let words = range(first, last);
    match kind {
        1 if first != last => Some(format!("DATA has the range {words}, not one chunk")),
        4 if Node::over(first, last).is_none() => {
            Some(format!("INTEGRITY has the range {words}, no node's"))
        }
        _ => None,
    }
}
