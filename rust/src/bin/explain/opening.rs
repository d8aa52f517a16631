//! Line one: the order.

use crate::digits;
use crate::words::{count, counted};
use ppspp::{Addressing, Order, Store};

/// The digits of line one: a root, then a length.
const DIGITS: usize = 72;
/// The longest pack that the replay program takes.
const MOST_LENGTH: u32 = 32_768;

/// The order of line one, under an addressing, and an empty store under it; else why the replay program gives `0c`.
pub fn start(line: Option<&[u8]>, addressing: Addressing) -> Result<(Order, Store), String> {
    let line = line.ok_or("there is no line at all")?;
    if line.len() != DIGITS {
        let characters = counted(line.len(), "character");
        let other = digits::other_character(line);
        let other = other.map_or(String::new(), |other| format!("; {other}"));
        return Err(format!(
            "it has {characters}, a root and a length have {DIGITS}{other}"
        ));
    }
    if let Some(other) = digits::other_character(line) {
        return Err(other);
    }
    let order = order(line).ok_or("its digits are no order")?;
    let order = order.addressing(addressing);
    if order.length == 0 {
        return Err("the length is 0".to_string());
    }
    if order.length > MOST_LENGTH {
        let (length, most) = (count(order.length as usize), count(MOST_LENGTH as usize));
        return Err(format!(
            "the length is {length}, the program takes up to {most}"
        ));
    }
    let store = Store::start(order).map_err(|refusal| refusal.to_string())?;
    Ok((order, store))
}

/// The order that digits name.
fn order(line: &[u8]) -> Option<Order> {
    let bytes = digits::bytes(line)?;
    let (&root, length) = bytes.split_first_chunk()?;
    let length = u32::from_be_bytes(*length.first_chunk()?);
    Some(Order::new(root, length))
}
