//! Reading one message.

use super::names::Chunks;
use super::{behind_id, kind, BEFORE_ID, END, FIXED_SIZE};
use super::{Addressing, ByBins, ByRanges, Message, Names, Options, Step};

/// What stands at byte `at` of a datagram of any length.
///
/// It is refused exactly where the papers give 2 for this message by itself. A node
/// that comes twice, and all of number 3, are matters of the whole datagram.
#[inline]
pub fn step(addressing: Addressing, datagram: &[u8], at: usize) -> Step {
    match addressing {
        Addressing::Bins => step_by::<ByBins>(datagram, at),
        Addressing::Ranges => step_by::<ByRanges>(datagram, at),
    }
}

#[inline]
fn step_by<N: Names>(datagram: &[u8], at: usize) -> Step {
    let Some((&kind, body)) = datagram.get(at..).and_then(<[u8]>::split_first) else {
        return Step::End;
    };
    match message::<N>(kind, body, at + 1) {
        Some((message, len)) => Step::Read {
            message,
            next: at + 1 + len,
        },
        None => Step::Refused,
    }
}

/// The message of a type and the bytes behind its type byte, which begin at
/// byte `at` of the datagram, and how many of them are its own.
#[inline]
fn message<N: Names>(kind: u8, body: &[u8], at: usize) -> Option<(Message, usize)> {
    match kind {
        kind::HANDSHAKE => {
            let (source, options, len) = handshake::<N>(body, at)?;
            Some((Message::Handshake { source, options }, len))
        }
        kind::DATA => {
            let (chunk, time) = data::<N>(body)?;
            let data = Message::Data {
                first: chunk,
                last: chunk,
                time,
                start: at + N::WITH_TIME,
                len: body.len() - N::WITH_TIME,
            };
            Some((data, body.len()))
        }
        kind::ACK => {
            let (first, last) = N::acked(body)?;
            let delay = number(&body[N::SIZE..])?;
            Some((Message::Ack { first, last, delay }, N::WITH_TIME))
        }
        kind::HAVE => over::<N>(kind, body, |first, last| Message::Have { first, last }),
        kind::INTEGRITY => {
            let (node, last) = integrity::<N>(body)?;
            let first = (node - u64::from(last)) as u32;
            let hash = at + N::SIZE;
            Some((Message::Integrity { first, last, hash }, N::WITH_HASH))
        }
        kind::REQUEST => over::<N>(kind, body, |first, last| Message::Request { first, last }),
        kind::CANCEL => over::<N>(kind, body, |first, last| Message::Cancel { first, last }),
        kind::CHOKE => Some((Message::Choke, 0)),
        kind::UNCHOKE => Some((Message::Unchoke, 0)),
        5..=7 | 12..=255 => None,
    }
}

/// The HAVE, REQUEST or CANCEL over the chunks named here, or the empty one.
#[inline]
fn over<N: Names>(
    kind: u8,
    body: &[u8],
    message: impl FnOnce(u32, u32) -> Message,
) -> Option<(Message, usize)> {
    let message = match N::chunks(body)? {
        Chunks::Range(first, last) => message(first, last),
        Chunks::Empty => Message::Empty { kind },
    };
    Some((message, N::SIZE))
}

/// A message that has an effect on its channel by itself.
#[derive(Clone, Copy)]
pub(crate) enum Effect {
    /// CHOKE and UNCHOKE, any number of them in a row: the last one counts.
    Marks {
        /// Whether it is CHOKE.
        choke: bool,
    },
    /// HAVE, REQUEST or CANCEL of the empty bin, which does nothing.
    Nothing,
    /// ACK, HAVE, REQUEST or CANCEL.
    Range {
        /// Its type byte.
        kind: u8,
        /// The first chunk of its range.
        first: u32,
        /// The last chunk of its range.
        last: u32,
    },
}

/// The same as `message` for these messages alone. None for other types, and for
/// one that is refused.
///
/// Types that are read alike are not told apart: in an order that cannot be
/// foreseen, that would cost more than all else.
#[inline(always)]
pub(crate) fn effect<N: Names>(kind: u8, body: &[u8]) -> Option<(Effect, usize)> {
    match kind {
        kind::CHOKE | kind::UNCHOKE => {
            let is_mark = |&&kind: &&u8| kind == kind::CHOKE || kind == kind::UNCHOKE;
            let more = body.iter().take_while(is_mark).count();
            let last = if more == 0 { kind } else { body[more - 1] };
            let choke = last == kind::CHOKE;
            Some((Effect::Marks { choke }, more))
        }
        kind::ACK => {
            let (first, last) = N::acked(body.get(..N::WITH_TIME)?)?;
            Some((Effect::Range { kind, first, last }, N::WITH_TIME))
        }
        kind::HAVE | kind::REQUEST | kind::CANCEL => {
            let effect = match N::chunks(body)? {
                Chunks::Range(first, last) => Effect::Range { kind, first, last },
                Chunks::Empty => Effect::Nothing,
            };
            Some((effect, N::SIZE))
        }
        _ => None,
    }
}

/// The source and the options of a HANDSHAKE, which begins at byte `at` of the
/// datagram, and how many of these bytes are its own.
#[inline]
pub(super) fn handshake<N: Names>(body: &[u8], at: usize) -> Option<(u32, Options, usize)> {
    let source = u32::from_be_bytes(*body.first_chunk()?);
    let (options, len) = options::<N>(&body[4..], at + 4)?;
    Some((source, options, 4 + len))
}

/// The node of an INTEGRITY with its hash behind it, and the node's last chunk.
#[inline]
pub(super) fn integrity<N: Names>(body: &[u8]) -> Option<(u64, u32)> {
    N::node(body.get(..N::WITH_HASH)?)
}

/// The chunk's number and the timestamp of DATA.
#[inline]
pub(super) fn data<N: Names>(body: &[u8]) -> Option<(u32, u64)> {
    let chunk = N::chunk(body)?;
    let time = number(&body[N::SIZE..])?;
    Some((chunk, time))
}

/// The 64-bit number at the front.
#[inline]
fn number(bytes: &[u8]) -> Option<u64> {
    bytes.first_chunk().map(|&bytes| u64::from_be_bytes(bytes))
}

/// The options at the front of the bytes, which begin at byte `at` of the
/// datagram, and how many bytes they have, End included.
fn options<N: Names>(bytes: &[u8], at: usize) -> Option<(Options, usize)> {
    if *bytes.first()? == END {
        return Some((Options::EndOnly, 1));
    }
    if let Some(fixed) = bytes.first_chunk::<FIXED_SIZE>() {
        if fixed.starts_with(&BEFORE_ID) && fixed.ends_with(&behind_id(N::ADDRESSING)) {
            let root = at + BEFORE_ID.len();
            return Some((Options::Fixed { root }, FIXED_SIZE));
        }
    }
    Some((Options::Other, options_size(bytes)?))
}

/// The number of bytes of the options at the front, End included: their codes
/// rise, and so come once each.
fn options_size(bytes: &[u8]) -> Option<usize> {
    let mut least = 0;
    let mut at = 0;
    loop {
        let (&code, value) = bytes.get(at..)?.split_first()?;
        if code == END {
            return Some(at + 1);
        }
        if code < least {
            return None;
        }
        let len = match code {
            // Versions, integrity method, hash function, live signature and
            // addressing.
            0 | 1 | 3..=6 => 1,
            // The swarm ID, behind its length.
            2 => 2 + usize::from(u16::from_be_bytes(*value.first_chunk()?)),
            // The discard window and the chunk size.
            7 | 9 => 4,
            // The supported messages, behind their length.
            8 => 1 + usize::from(*value.first()?),
            10.. => return None,
        };
        least = code + 1;
        at += 1 + len;
    }
}
