//! How messages name the chunks of a row of bits: by ranges, or by bins.

use crate::bits;
use ppspp::Addressing;

/// The first and the last chunk of each message that is needed to name the chunks of a row, in a pack of so many.
/// Under ranges that is one for each run; under bins a run is cut into subtrees, as few as there can be.
pub fn names(addressing: Addressing, chunks: u32, row: &[u32]) -> Vec<(u32, u32)> {
    let runs = bits::runs(row);
    if addressing != Addressing::Bins {
        return runs;
    }
    let mut names = Vec::new();
    for (first, last) in runs {
        // A bin that runs past the last chunk of the pack means its part inside.
        let end = if last + 1 == chunks { u32::MAX } else { last };
        let mut rest = first;
        while rest <= last {
            let size = largest(rest, last, end);
            names.push((rest, rest + size - 1));
            rest += size;
        }
    }
    names
}

/// How many chunks the largest bin has that begins with a first chunk and does not go behind an end; a smaller one if
/// that reaches the last chunk too.
fn largest(first: u32, last: u32, end: u32) -> u32 {
    let mut size = 1;
    while first.is_multiple_of(2 * size) && first + size <= last && first + (2 * size - 1) <= end {
        size *= 2;
    }
    size
}

/// The bytes in which a message names chunks.
pub fn name_bytes(addressing: Addressing) -> usize {
    match addressing {
        Addressing::Bins => 4,
        _ => 8,
    }
}
