//! The options of a HANDSHAKE.

use crate::digits;
use crate::words::{count, counted};
use ppspp::{Addressing, Order};

/// The code that ends the options.
const END: u8 = 255;
/// The code of the swarm ID.
const SWARM_ID: u8 = 2;
/// The code of the addressing.
const ADDRESSING: u8 = 6;

/// The options in code order.
const NAMES: [&str; 10] = [
    "version",
    "least version",
    "swarm ID",
    "integrity method",
    "hash function",
    "live signature",
    "addressing",
    "discard window",
    "supported messages",
    "chunk size",
];

/// An option that came: its code and its value, without a length.
pub struct Given<'a> {
    code: u8,
    value: &'a [u8],
}

/// A code with its name.
fn named(code: u8) -> String {
    let name = NAMES.get(usize::from(code)).copied();
    format!("option {code} ({})", name.unwrap_or("unknown"))
}

/// The options at the front of the bytes, up to End; else which rule they break.
pub fn walk(bytes: &[u8]) -> Result<Vec<Given<'_>>, String> {
    let mut given: Vec<Given<'_>> = Vec::new();
    let mut rest = bytes;
    while let Some((&code, behind)) = rest.split_first() {
        if code == END {
            return Ok(given);
        }
        if usize::from(code) >= NAMES.len() {
            return Err(format!("option {code} is unknown"));
        }
        match given.last() {
            Some(before) if before.code == code => {
                return Err(format!("{} comes twice", named(code)))
            }
            Some(before) if before.code > code => {
                return Err(format!(
                    "{} stands behind option {}",
                    named(code),
                    before.code
                ))
            }
            _ => {}
        }
        let Some((value, next)) = value(code, behind) else {
            return Err(format!("{} is cut short", named(code)));
        };
        given.push(Given { code, value });
        rest = next;
    }
    Err("its options have no End".to_string())
}

/// The value of an option and the bytes behind it.
fn value(code: u8, bytes: &[u8]) -> Option<(&[u8], &[u8])> {
    match code {
        SWARM_ID => {
            let (length, bytes) = bytes.split_first_chunk()?;
            bytes.split_at_checked(u16::from_be_bytes(*length).into())
        }
        8 => {
            let (&length, bytes) = bytes.split_first()?;
            bytes.split_at_checked(length.into())
        }
        7 | 9 => bytes.split_at_checked(4),
        _ => bytes.split_at_checked(1),
    }
}

/// What the profile has for a code under an order; none for one that its HANDSHAKE is without.
fn wanted(code: u8, order: &Order) -> Option<&[u8]> {
    match code {
        0 | 1 | 3 => Some(&[1]),
        SWARM_ID => Some(&order.root),
        ADDRESSING if order.known_addressing() == Some(Addressing::Bins) => Some(&[0]),
        4 | ADDRESSING => Some(&[2]),
        9 => Some(&[0, 0, 4, 0]),
        _ => None,
    }
}

/// In what the options at the front of the bytes differ from the profile's under an order; none where they do not, or
/// are of no sound layout.
pub fn difference(bytes: &[u8], order: &Order) -> Option<String> {
    let given = walk(bytes).ok()?;
    if given.is_empty() {
        return Some("no option came, the profile's seven are expected".to_string());
    }
    let of = |code| given.iter().find(|given| given.code == code);
    let codes = (0..).take(NAMES.len());
    let differences = codes.filter_map(|code| {
        let came = of(code).map(|given| given.value);
        one_difference(code, came, wanted(code, order))
    });
    let differences: Vec<String> = differences.collect();
    (!differences.is_empty()).then(|| differences.join("; "))
}

/// In what an option differs.
fn one_difference(code: u8, came: Option<&[u8]>, wanted: Option<&[u8]>) -> Option<String> {
    let name = named(code);
    match (came, wanted) {
        (None, Some(_)) if code == SWARM_ID => Some(format!("{name} is missing")),
        (None, Some(wanted)) => Some(format!("{name} is missing, expected is {}", number(wanted))),
        (Some(_), None) => Some(format!("{name} came, the profile is without it")),
        (Some(came), Some(wanted)) if came == wanted => None,
        (Some(came), Some(wanted)) if code == SWARM_ID => Some(other_swarm(&name, came, wanted)),
        (Some(came), Some(wanted)) => {
            let (came, wanted) = (number(came), number(wanted));
            Some(format!("{name} is {came}, expected is {wanted}"))
        }
        (None, None) => None,
    }
}

/// What is wrong with a swarm ID.
fn other_swarm(name: &str, came: &[u8], wanted: &[u8]) -> String {
    if came.len() != wanted.len() {
        let bytes = counted(came.len(), "byte");
        return format!("{name} has {bytes}, a root has {}", wanted.len());
    }
    let came = digits::encode(came);
    format!("{name} is not this pack's root, it is {came}")
}

/// A value of up to four bytes as a number.
fn number(value: &[u8]) -> String {
    let number = value
        .iter()
        .fold(0, |number: u32, &byte| number << 8 | u32::from(byte));
    count(number as usize)
}
