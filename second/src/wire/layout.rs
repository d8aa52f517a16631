//! The layout of a whole datagram.

use super::nodes::Seen;
use super::read::{data, handshake, integrity};
use super::{effect, kind, Addressing, ByBins, ByRanges, Effect, Layout, Names, Options};
use super::{MAX_SIZE, MIN_SIZE};
use crate::answer::{BAD_LAYOUT, BAD_SIZE, MISPLACED};

/// The size check, then the layout checks message by message from left to
/// right, in each 2 before 3: the error is 1, 2 or 3.
///
/// `nodes` is emptied first and gets the number of the node and the place of
/// its hash of each INTEGRITY in datagram order; after a refusal, those of the
/// messages before the one refused.
#[inline]
pub fn layout(
    addressing: Addressing,
    datagram: &[u8],
    nodes: &mut Vec<(u64, usize)>,
) -> Result<Layout, u8> {
    nodes.clear();
    match addressing {
        Addressing::Bins => layout_by::<ByBins>(datagram, nodes),
        Addressing::Ranges => layout_by::<ByRanges>(datagram, nodes),
    }
}

/// The same where the list is empty.
#[inline]
fn layout_by<N: Names>(datagram: &[u8], nodes: &mut Vec<(u64, usize)>) -> Result<Layout, u8> {
    let mut seen: Option<Seen> = None;
    let laid = check::<N>(datagram, |node, place| {
        let perhaps = seen.get_or_insert_default().insert(node);
        let new = !(perhaps && nodes.iter().any(|&(known, _)| known == node));
        if new {
            nodes.push((node, place));
        }
        new
    });
    laid.map(|laid| laid.layout)
}

/// What the checks find.
pub(crate) struct Laid {
    pub layout: Layout,
    /// The highest chunk that must be in the pack, but that of DATA; 0 without
    /// one.
    pub highest: u32,
    /// Whether there is a message that has an effect without DATA.
    pub has_effects: bool,
}

/// The checks of `layout`. `keep` is given the node and the place of the hash of
/// each INTEGRITY, and tells whether the node is new.
#[inline(always)]
pub(crate) fn check<N: Names>(
    datagram: &[u8],
    mut keep: impl FnMut(u64, usize) -> bool,
) -> Result<Laid, u8> {
    let destination = match datagram.first_chunk::<MIN_SIZE>() {
        Some(&bytes) if datagram.len() <= MAX_SIZE => u32::from_be_bytes(bytes),
        _ => return Err(BAD_SIZE),
    };
    let (mut highest, mut has_effects) = (0, false);
    let mut at = MIN_SIZE;
    let layout = loop {
        let Some(&kind) = datagram.get(at) else {
            break Layout::Messages;
        };
        let body = &datagram[at + 1..];
        let len = match kind {
            kind::INTEGRITY => {
                let (node, last) = integrity::<N>(body).ok_or(BAD_LAYOUT)?;
                if !keep(node, at + 1 + N::SIZE) {
                    return Err(BAD_LAYOUT);
                }
                highest = last.max(highest);
                N::WITH_HASH
            }
            kind::DATA => {
                let (chunk, time) = data::<N>(body).ok_or(BAD_LAYOUT)?;
                break Layout::MessagesAndData {
                    chunk,
                    time,
                    start: at + 1 + N::WITH_TIME,
                    len: body.len() - N::WITH_TIME,
                };
            }
            kind::HANDSHAKE => {
                let (source, options, len) = handshake::<N>(body, at + 1).ok_or(BAD_LAYOUT)?;
                let alone = at == MIN_SIZE && len == body.len();
                if alone && source_fits(destination, source, options) {
                    break Layout::HandshakeAlone { source, options };
                }
                return Err(MISPLACED);
            }
            _ => {
                let (effect, len) = effect::<N>(kind, body).ok_or(BAD_LAYOUT)?;
                if let Effect::Range { first, last, .. } = effect {
                    highest = N::must_be_inside(first, last).max(highest);
                }
                has_effects = true;
                len
            }
        };
        at += 1 + len;
    };
    Ok(Laid {
        layout,
        highest,
        has_effects,
    })
}

/// Whether a HANDSHAKE may have this source: only a closing one has 0, it is
/// to a channel, and it has End alone.
#[inline]
pub(super) fn source_fits(destination: u32, source: u32, options: Options) -> bool {
    source != 0 || (destination != 0 && options == Options::EndOnly)
}
