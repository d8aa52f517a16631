//! The calls a second time, as near to 01's words as can be, for the tests to
//! compare with: slow, one bit and one node at a time. Each gives the number
//! that refuses it, or the caller afterwards with its reply.

mod taking;

pub use taking::{ack_for, take};

use super::{is_set, Caller};
use crate::channel::{Phase, Row, State};
use crate::packets::*;
use crate::sha256::Digest;
use crate::store::plain;
use crate::wire::Addressing;

/// What is refused, or how things are afterwards and what is replied.
pub type Done<Refused = u8> = Result<(Caller, Vec<u8>), Refused>;

/// The least number of words with so many bits.
fn words(bits: usize) -> usize {
    (0..).find(|words| 32 * words >= bits).unwrap()
}

/// The number of chunks, and the leaf places of the least tree for them.
fn counts(length: u32) -> (usize, usize) {
    let count = (length as usize).div_ceil(1024);
    let places = (0..).map(|i| 1 << i).find(|&places| places >= count);
    (count, places.unwrap())
}

/// 12, then 11.
fn check(caller: &Caller, length: u32) -> Result<(), u8> {
    if !(1..=524_288).contains(&length) {
        return Err(12);
    }
    let (count, places) = counts(length);
    let small = caller.chunks.len() < length as usize
        || caller.map.len() < words(count)
        || caller.hashes.len() < 16 * places
        || caller.trusted.len() < words(2 * places)
        || caller.has.len() < 16 * words(count)
        || caller.wants.len() < 16 * words(count)
        || caller.reply.len() < 2048;
    if small {
        Err(11)
    } else {
        Ok(())
    }
}

fn done(mut after: Caller, reply: Vec<u8>) -> Done {
    after.reply[..reply.len()].copy_from_slice(&reply);
    Ok((after, reply))
}

/// The order's addressing method, or 12.
fn method(number: u32) -> Result<Addressing, u8> {
    match number {
        0 => Ok(Addressing::Bins),
        2 => Ok(Addressing::Ranges),
        _ => Err(12),
    }
}

pub fn start(before: &Caller, root: &Digest, length: u32, number: u32) -> Done {
    let addressing = method(number)?;
    check(before, length)?;
    let mut after = before.clone();
    let (count, places) = counts(length);
    after.map[..words(count)].fill(0);
    after.trusted[..words(2 * places)].fill(0);
    after.has[..16 * words(count)].fill(0);
    after.wants[..16 * words(count)].fill(0);
    trust(&mut after, places as u64 - 1, root);
    after.state = State {
        root: *root,
        length,
        addressing,
        rows: [Row::default(); 16],
    };
    done(after, vec![])
}

pub fn build(before: &Caller, length: u32, number: u32, content: &[u8]) -> Done {
    method(number)?;
    if content.len() != length as usize {
        return Err(12);
    }
    check(before, length)?;
    let (count, places) = counts(length);
    let root = plain::hash(content, places as u64 - 1);
    let (mut after, _) = start(before, &root, length, number)?;
    after.chunks[..content.len()].copy_from_slice(content);
    for chunk in 0..count {
        after.map[chunk / 32] |= 1 << (chunk % 32);
    }
    for (node, first, width) in all_nodes(places) {
        if first + width <= count {
            trust(&mut after, node, &plain::hash(content, node));
        }
    }
    done(after, vec![])
}

/// All nodes of a tree, each with its first chunk and how many it covers.
fn all_nodes(places: usize) -> impl Iterator<Item = (u64, usize, usize)> {
    (0..2 * places - 1).map(|node| {
        let width = 1 << node.trailing_ones();
        (node as u64, (node + 1 - width) / 2, width)
    })
}

/// Writes a node's hash and sets its trusted bit.
fn trust(after: &mut Caller, node: u64, hash: &Digest) {
    let node = node as usize;
    for i in 0..8 {
        let bytes = hash[4 * i..4 * i + 4].try_into().unwrap();
        after.hashes[8 * node + i] = u32::from_be_bytes(bytes);
    }
    after.trusted[node / 32] |= 1 << (node % 32);
}

/// The lowest row in use under an ID.
fn row_of(state: &State, id: u32) -> Option<usize> {
    (0..16).find(|&i| state.rows[i].phase != Phase::Free && state.rows[i].id == id)
}

pub fn open(before: &Caller, id: u32) -> Done {
    check(before, before.state.length)?;
    occupy(before, id, 0, Phase::Calling)
}

fn occupy(before: &Caller, id: u32, peer: u32, phase: Phase) -> Done {
    if id == 0 || row_of(&before.state, id).is_some() {
        return Err(14);
    }
    let free = (0..16).find(|&i| before.state.rows[i].phase == Phase::Free);
    let index = free.ok_or(6)?;
    let mut after = before.clone();
    after.state.rows[index] = Row {
        phase,
        id,
        peer,
        choked: false,
    };
    let words = words(counts(before.state.length).0);
    for word in index * words..(index + 1) * words {
        after.has[word] = 0;
        after.wants[word] = 0;
    }
    let options = either::fixed(before.state.addressing, &before.state.root);
    done(after, to(peer, &[&handshake(id, &options)]))
}

pub fn write(before: &Caller, id: u32, chunk: u32, clock: u64) -> Done {
    let State {
        length,
        addressing,
        rows,
        ..
    } = &before.state;
    check(before, *length)?;
    // Not `row_of`: a row that is not open does not count.
    let open = (0..16).find(|&i| rows[i].id == id && rows[i].phase == Phase::Open);
    let row = rows[open.ok_or(3)?];
    let (count, places) = counts(*length);
    let number = chunk as usize;
    if number >= count {
        return Err(7);
    }
    if !is_set(&before.map, chunk.into()) {
        return Err(13);
    }
    let hashes = sent_with(number, count, places)
        .into_iter()
        .map(|node| either::integrity(*addressing, node, &before.hash(node)));
    let hashes = hashes.collect::<Vec<_>>().concat();
    let end = (1024 * (number + 1)).min(*length as usize);
    let bytes = &before.chunks[1024 * number..end];
    let data = either::data(*addressing, 2 * u64::from(chunk), clock, bytes);
    done(before.clone(), to(row.peer, &[&hashes, &data]))
}

/// All peaks and all siblings below the chunk's peak, sorted.
fn sent_with(chunk: usize, count: usize, places: usize) -> Vec<u64> {
    let peaks = peaks(count, places);
    let mut nodes: Vec<(u64, usize, usize)> = all_nodes(places)
        .filter(|&(node, first, width)| {
            // Not over the chunk, but half of a node that is, inside a peak.
            let pair = first / (2 * width) * 2 * width;
            let over = |first, width| (first..first + width).contains(&chunk);
            let sibling = !over(first, width) && over(pair, 2 * width);
            peaks.contains(&node) || (sibling && pair + 2 * width <= count)
        })
        .collect();
    nodes.sort_by_key(|&(_, first, width)| (usize::MAX - width, first));
    nodes.into_iter().map(|(node, ..)| node).collect()
}

/// The whole nodes below none that is whole, from left to right.
fn peaks(count: usize, places: usize) -> Vec<u64> {
    let mut peaks = Vec::new();
    let mut next = 0;
    while next < count {
        let largest = all_nodes(places)
            .filter(|&(_, first, width)| first == next && first + width <= count)
            .max_by_key(|&(_, _, width)| width);
        let (node, _, width) = largest.unwrap();
        peaks.push(node);
        next += width;
    }
    peaks
}

pub fn ask(caller: &Caller) -> (u8, u32, bool) {
    let length = caller.state.length;
    if !(1..=524_288).contains(&length) {
        return (12, 0, false);
    }
    let (count, _) = counts(length);
    if caller.map.len() < words(count) {
        return (11, 0, false);
    }
    let held = (0..count as u64).filter(|&i| is_set(&caller.map, i));
    let held = held.count();
    (0, held as u32, held == count)
}
