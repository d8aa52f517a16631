//! Starting a store, and building a whole one.

use super::rooms::set_range;
use super::{Rooms, Sizes, State};
use crate::answer;
use crate::climb::{self, Hashes};
use crate::sha256::Digest;
use crate::store::check_length;
use crate::tree;
use crate::wire::Addressing;

/// "Starting clears all bit rows and the channel table, writes the root's hash
/// and sets its trusted bit, nothing else."
pub fn start(
    state: &mut State,
    rooms: &mut Rooms,
    root: &Digest,
    length: u32,
    method: u32,
) -> Result<usize, u8> {
    check_length(length)?;
    let addressing = addressing(method)?;
    let sizes = Sizes::of(length);
    rooms.check(&sizes)?;
    rooms.clear_rows(&sizes);
    let top = tree::root(tree::chunk_count(length));
    rooms.lent_hashes().trust(top, root);
    *state = with_no_channel(*root, length, addressing);
    Ok(0)
}

/// "Building takes L and content, copies it, sets the N map bits, and writes and
/// trusts the hashes of the root and of every node wholly inside the pack, no
/// others; the root found becomes the order's; the rest is as after starting."
pub fn build(
    state: &mut State,
    rooms: &mut Rooms,
    length: u32,
    method: u32,
    content: &[u8],
) -> Result<usize, u8> {
    check_length(length)?;
    let addressing = addressing(method)?;
    if content.len() != length as usize {
        return Err(answer::BAD_LENGTH);
    }
    let sizes = Sizes::of(length);
    rooms.check(&sizes)?;
    rooms.clear_rows(&sizes);
    rooms.chunks[..content.len()].copy_from_slice(content);
    set_range(rooms.map, 0, tree::chunk_count(length) - 1);
    let root = climb::build(&mut rooms.lent_hashes(), content);
    *state = with_no_channel(root, length, addressing);
    Ok(0)
}

/// The addressing method of a number.
fn addressing(method: u32) -> Result<Addressing, u8> {
    Addressing::of(method).ok_or(answer::BAD_METHOD)
}

/// An order, and a channel table that is cleared.
fn with_no_channel(root: Digest, length: u32, addressing: Addressing) -> State {
    State {
        root,
        length,
        addressing,
        ..State::default()
    }
}
