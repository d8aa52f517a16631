//! Taking in a datagram, a second time.

use super::*;
use crate::answer::Refusal;
use crate::sha256::{node, sha256};
use crate::wire::{layout, step, Layout, Message, Options, Step};
use std::collections::BTreeMap;

/// Nodes and their hashes.
type Hashes = BTreeMap<u64, Digest>;

pub fn take(before: &Caller, clock: u64, id: u32, datagram: &[u8]) -> Done<Refusal> {
    let State { root, length, .. } = &before.state;
    check(before, *length)?;
    let layout = layout(before.state.addressing, datagram, &mut Vec::new())?;
    let destination = u32::from_be_bytes(datagram[..4].try_into().unwrap());
    let row = match destination {
        0 => None,
        _ => row_of(&before.state, destination),
    };
    let Layout::HandshakeAlone { source, options } = layout else {
        let row = row.ok_or(Refusal::Number(5))?;
        return take_messages(before, clock, row, datagram);
    };
    let good = match options {
        Options::Fixed { root: at } => datagram[at..at + 32] == *root,
        _ => false,
    };
    let done = match destination {
        0 if good => occupy(before, id, source, Phase::Open),
        0 => Err(4),
        _ => row
            .ok_or(5)
            .and_then(|row| take_handshake(before, row, source, good)),
    };
    done.map_err(Refusal::Number)
}

fn take_handshake(before: &Caller, row: usize, source: u32, good: bool) -> Done {
    let mut after = before.clone();
    let record = &mut after.state.rows[row];
    match (record.phase, source) {
        (Phase::Open, 0) => *record = Row::default(),
        (Phase::Calling, 0) => return Err(3),
        (Phase::Open, source) if source != record.peer => return Err(3),
        (Phase::Open, _) if good => {}
        (Phase::Calling, source) if good => {
            record.phase = Phase::Open;
            record.peer = source;
        }
        _ => return Err(4),
    }
    done(after, vec![])
}

fn take_messages(before: &Caller, clock: u64, row: usize, datagram: &[u8]) -> Done<Refusal> {
    let mut messages = Vec::new();
    let mut at = 4;
    while let Step::Read { message, next } = step(before.state.addressing, datagram, at) {
        messages.push(message);
        at = next;
    }
    let record = &before.state.rows[row];
    if record.phase == Phase::Calling && !messages.is_empty() {
        return Err(Refusal::Number(3));
    }
    let (count, _) = counts(before.state.length);
    let bins = before.state.addressing == Addressing::Bins;
    let past = |message| needed(bins, message) >= count as u64;
    if messages.iter().any(past) {
        return Err(Refusal::Number(7));
    }
    let mut after = before.clone();
    let mut came = Hashes::new();
    let mut reply = vec![];
    for message in messages {
        match message {
            Message::Integrity { first, last, hash } => {
                let node = u64::from(first) + u64::from(last);
                came.insert(node, datagram[hash..hash + 32].try_into().unwrap());
            }
            Message::Data {
                first: chunk,
                time,
                start,
                ..
            } => {
                take_chunk(&mut after, chunk as usize, &datagram[start..], &came)?;
                let ack = ack_for(&after, chunk, clock.wrapping_sub(time));
                reply = to(record.peer, &[&ack]);
            }
            message => apply(&mut after, row, message),
        }
    }
    Ok(done(after, reply)?)
}

/// The ACK for a chunk that is in the map (02, No. 2).
pub fn ack_for(after: &Caller, chunk: u32, delay: u64) -> Vec<u8> {
    let (count, places) = counts(after.state.length);
    let chunk = chunk as usize;
    let held = |chunk: usize| is_set(&after.map, chunk as u64);
    match after.state.addressing {
        // "The longest run of held chunks around it."
        Addressing::Ranges => {
            let down = (0..=chunk).rev().take_while(|&chunk| held(chunk));
            let up = (chunk..count).take_while(|&chunk| held(chunk));
            let [first, last] = [down.last(), up.last()].map(|chunk| chunk.unwrap() as u32);
            ack(first, last, delay)
        }
        // "The largest whole subtree inside the pack all of whose chunks are held."
        Addressing::Bins => {
            let subtrees = all_nodes(places).filter(|&(_, first, width)| {
                let mut chunks = first..first + width;
                chunks.contains(&chunk) && chunks.end <= count && chunks.all(held)
            });
            let (node, ..) = subtrees.max_by_key(|&(_, _, width)| width).unwrap();
            either::ack(after.state.addressing, node, delay)
        }
    }
}

/// The chunk of a message, if any, that must be in the pack: the last one, but
/// "in HAVE, REQUEST, CANCEL and ACK a bin that runs past the last chunk means its
/// part inside the pack; wholly past is 7".
fn needed(bins: bool, message: &Message) -> u64 {
    match *message {
        Message::Ack { first, .. }
        | Message::Have { first, .. }
        | Message::Request { first, .. }
        | Message::Cancel { first, .. }
            if bins =>
        {
            first.into()
        }
        Message::Data { last, .. }
        | Message::Ack { last, .. }
        | Message::Have { last, .. }
        | Message::Integrity { last, .. }
        | Message::Request { last, .. }
        | Message::Cancel { last, .. } => last.into(),
        _ => 0,
    }
}

/// The effects of the other messages.
fn apply(after: &mut Caller, row: usize, message: Message) {
    let (count, _) = counts(after.state.length);
    let start = row * words(count);
    let has = &mut after.has[start..];
    let wants = &mut after.wants[start..];
    // The chunks inside the pack.
    let mark = |row: &mut [u32], first, last: u32, value| {
        set(row, first, last.min(count as u32 - 1), value);
    };
    match message {
        Message::Ack { first, last, .. } | Message::Have { first, last } => {
            mark(has, first, last, true);
            mark(wants, first, last, false);
        }
        Message::Request { first, last } => mark(wants, first, last, true),
        Message::Cancel { first, last } => mark(wants, first, last, false),
        Message::Choke => after.state.rows[row].choked = true,
        Message::Unchoke => after.state.rows[row].choked = false,
        _ => {}
    }
}

fn set(row: &mut [u32], first: u32, last: u32, value: bool) {
    for bit in first as usize..=last as usize {
        row[bit / 32] &= !(1 << (bit % 32));
        row[bit / 32] |= u32::from(value) << (bit % 32);
    }
}

/// 8, 9, 10, or the chunk and its hashes are there afterwards.
fn take_chunk(
    after: &mut Caller,
    chunk: usize,
    bytes: &[u8],
    came: &Hashes,
) -> Result<(), Refusal> {
    let (count, places) = counts(after.state.length);
    if bytes.len() != (after.state.length as usize - 1024 * chunk).min(1024) {
        return Err(Refusal::Number(8));
    }
    let peaks = peaks(count, places);
    let trusted = peaks.iter().all(|&peak| is_set(&after.trusted, peak));
    let (path, top) = path(after, chunk, &peaks);
    // "The first needed and missing one in 01's sending order."
    let needed = |node| match peaks.contains(&node) {
        true => !trusted,
        false => path.iter().any(|&(_, other)| other == node),
    };
    let mut sent = sent_with(chunk, count, places).into_iter();
    if let Some(node) = sent.find(|&node| needed(node) && !came.contains_key(&node)) {
        return Err(Refusal::HashMissing(node));
    }
    let mut kept = Hashes::new();
    if !trusted {
        kept.extend(peaks.iter().map(|&peak| (peak, came[&peak])));
        // "The root if the peaks fail."
        if over(&kept, count, 0, places) != Some(after.state.root) {
            return Err(Refusal::HashWrong(places as u64 - 1));
        }
    }
    // "The trusted node missed."
    let wanted = kept.get(&top).copied().unwrap_or_else(|| after.hash(top));
    if climb(&mut kept, sha256(bytes), &path, came) != wanted {
        return Err(Refusal::HashWrong(top));
    }
    if !is_set(&after.map, chunk as u64) {
        set(&mut after.map, chunk as u32, chunk as u32, true);
        after.chunks[1024 * chunk..1024 * chunk + bytes.len()].copy_from_slice(bytes);
        kept.iter()
            .for_each(|(&node, hash)| trust(after, node, hash));
    }
    Ok(())
}

/// From a chunk's leaf to the first trusted node: those below it, each with its
/// sibling, and that node.
fn path(caller: &Caller, chunk: usize, peaks: &[u64]) -> (Vec<(u64, u64)>, u64) {
    let mut path = Vec::new();
    let mut top = 2 * chunk as u64;
    while !is_set(&caller.trusted, top) && !peaks.contains(&top) {
        let [other, above] = beside_and_above(top);
        path.push((top, other));
        top = above;
    }
    (path, top)
}

/// The hash that a leaf's leads to; each node climbed from, with its sibling, is
/// kept.
fn climb(kept: &mut Hashes, leaf: Digest, path: &[(u64, u64)], came: &Hashes) -> Digest {
    let mut hash = leaf;
    for &(own, other) in path {
        kept.extend([(own, hash), (other, came[&other])]);
        let [left, right] = [own.min(other), own.max(other)].map(|node| kept[&node]);
        hash = node(&left, &right);
    }
    hash
}

/// The other half of the pair that a node is of, and the node over both.
fn beside_and_above(node: u64) -> [u64; 2] {
    let width = 1 << node.trailing_ones();
    let first = (node + 1 - width) / 2;
    if first / width % 2 == 1 {
        [node - 2 * width, node - width]
    } else {
        [node + 2 * width, node + width]
    }
}

/// The hash that peaks and fillers give over `width` leaves from `first` on;
/// none if all are fillers.
fn over(peaks: &Hashes, count: usize, first: usize, width: usize) -> Option<Digest> {
    if first >= count {
        return None;
    }
    if let Some(hash) = peaks.get(&((2 * first + width - 1) as u64)) {
        return Some(*hash);
    }
    let half = width / 2;
    let left = over(peaks, count, first, half).unwrap_or([0; 32]);
    let right = over(peaks, count, first + half, half).unwrap_or([0; 32]);
    Some(node(&left, &right))
}
