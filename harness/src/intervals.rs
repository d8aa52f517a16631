//! The biggest complete interval around a chunk (02, No. 2) by a plain reading of
//! what it is, chunk by chunk. No program under test is asked.
//!
//! It is told for any numbers: a chunk past the map's words is not held, and the
//! chunk itself counts as held, whatever its bit.

use crate::channels::is_set;
use second::wire::Addressing;

/// The first and the last chunk of the biggest interval that a method can name.
pub fn interval(addressing: Addressing, map: &[u32], count: u32, chunk: u32) -> (u32, u32) {
    let run = run(map, count, chunk);
    match addressing {
        Addressing::Bins => subtree(run, count, chunk),
        Addressing::Ranges => run,
    }
}

/// The chunk with the held ones directly below it, and with those directly behind
/// it that are in the pack.
fn run(map: &[u32], count: u32, chunk: u32) -> (u32, u32) {
    let is_held = |chunk: u32| is_set(map, chunk as usize);
    let below = (0..chunk).rev().take_while(|&below| is_held(below));
    let first = below.last().unwrap_or(chunk);
    let behind = chunk.saturating_add(1)..count;
    let last = behind.take_while(|&behind| is_held(behind)).last();
    (first, last.unwrap_or(chunk))
}

/// Of the subtrees over the chunk, none higher than the tree over the pack, the
/// highest that lies in the run; else the chunk.
fn subtree((first, last): (u32, u32), count: u32, chunk: u32) -> (u32, u32) {
    let run = u64::from(first)..=u64::from(last);
    let levels = (0..=32).find(|level| u64::from(count) <= 1 << level);
    for height in (1..=levels.unwrap_or(32)).rev() {
        let size = 1 << height;
        let first = u64::from(chunk) / size * size;
        let last = first + size - 1;
        if run.contains(&first) && run.contains(&last) {
            return (first as u32, last as u32);
        }
    }
    (chunk, chunk)
}
