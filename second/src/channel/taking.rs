//! Taking in a datagram.

use super::opening::occupy;
use super::rooms::{bit, clear_range, set_bit, set_range};
use super::{Phase, Rooms, Row, Sizes, State};
use crate::answer::{self, Refusal};
use crate::climb::Order;
use crate::run::biggest_interval;
use crate::sha256::Digest;
use crate::tree::{self, CHUNK_SIZE};
use crate::wire::MIN_SIZE;
use crate::wire::{self, address, append, kind, Effect, Layout, Message, Names, Nodes, Options};

/// Takes in a datagram at a clock; `id` is for a channel that it may open.
pub fn take<N: Names>(
    state: &mut State,
    rooms: &mut Rooms,
    clock: u64,
    id: u32,
    datagram: &[u8],
) -> Result<usize, Refusal> {
    let sizes = state.check(rooms)?;
    let mut nodes = Nodes::<N>::of(datagram);
    let laid = wire::check::<N>(datagram, |node, place| nodes.keep(node, place))?;
    let came = Came {
        datagram,
        nodes: &nodes,
        highest: laid.highest,
        has_effects: laid.has_effects,
    };
    match laid.layout {
        Layout::HandshakeAlone { source, options } if destination(datagram) == 0 => {
            fit(options, datagram, &state.root)?;
            let row = Row {
                phase: Phase::Open,
                id,
                peer: source,
                choked: false,
            };
            Ok(occupy::<N>(state, rooms, &sizes, row)?)
        }
        Layout::HandshakeAlone { source, options } => {
            Ok(take_handshake(state, datagram, source, options)?)
        }
        Layout::Messages => take_messages(state, rooms, &sizes, &came, None),
        Layout::MessagesAndData {
            chunk,
            time,
            start,
            len,
        } => {
            let data = Data {
                chunk,
                bytes: &datagram[start..start + len],
                delay: clock.wrapping_sub(time),
            };
            take_messages(state, rooms, &sizes, &came, Some(data))
        }
    }
}

/// The channel that a datagram of sound layout is for.
fn destination(datagram: &[u8]) -> u32 {
    let bytes = datagram.first_chunk().copied();
    bytes.map_or(0, u32::from_be_bytes)
}

/// Whether the options are 01's around our root; 4 if not.
fn fit(options: Options, datagram: &[u8], root: &Digest) -> Result<(), u8> {
    match options {
        Options::Fixed { root: place } if datagram[place..].starts_with(root) => Ok(()),
        _ => Err(answer::BAD_OPTIONS),
    }
}

/// Takes a HANDSHAKE to a channel other than 0. A closing one has source 0, and
/// by its layout End alone. None is answered.
fn take_handshake(
    state: &mut State,
    datagram: &[u8],
    source: u32,
    options: Options,
) -> Result<usize, u8> {
    let index = state.destination(destination(datagram))?;
    let row = &mut state.rows[index];
    let open = row.phase == Phase::Open;
    if open && source == 0 {
        *row = Row::default();
        return Ok(0);
    }
    if source == 0 || (open && source != row.peer) {
        return Err(answer::MISPLACED);
    }
    fit(options, datagram, &state.root)?;
    // Nothing new where the channel is open.
    row.phase = Phase::Open;
    row.peer = source;
    Ok(0)
}

/// DATA that came.
struct Data<'d> {
    chunk: u32,
    bytes: &'d [u8],
    /// The clock minus the timestamp.
    delay: u64,
}

/// Takes messages other than HANDSHAKE, none for a keepalive.
fn take_messages<N: Names>(
    state: &mut State,
    rooms: &mut Rooms,
    sizes: &Sizes,
    came: &Came<N>,
    data: Option<Data>,
) -> Result<usize, Refusal> {
    let index = state.destination(destination(came.datagram))?;
    let row = &mut state.rows[index];
    if row.phase == Phase::Calling {
        let keepalive = came.datagram.len() == MIN_SIZE;
        return if keepalive {
            Ok(0)
        } else {
            Err(answer::MISPLACED.into())
        };
    }
    let highest = data.as_ref().map_or(0, |data| data.chunk).max(came.highest);
    let count = tree::chunk_count(state.length);
    if highest >= count {
        return Err(answer::PAST_THE_END.into());
    }
    let mut length = 0;
    if let Some(data) = data {
        let order = Order::new(&state.root, state.length);
        store(&order, rooms, came, &data)?;
        length = acknowledge::<N>(rooms, count, row.peer, &data);
    }
    if came.has_effects {
        apply::<N>(came.datagram, count, row, rooms.channel_rows(index, sizes));
    }
    Ok(length)
}

/// Checks a chunk, and keeps it if it is not held already.
fn store<N: Names>(
    order: &Order,
    rooms: &mut Rooms,
    came: &Came<N>,
    data: &Data,
) -> Result<(), Refusal> {
    let Data { chunk, bytes, .. } = *data;
    let find = |node| came.nodes.hash(node);
    let proof = order.check(&rooms.lent_hashes(), chunk, bytes, find)?;
    if !bit(rooms.map, chunk as usize) {
        let start = (chunk * CHUNK_SIZE) as usize;
        rooms.chunks[start..start + bytes.len()].copy_from_slice(bytes);
        set_bit(rooms.map, chunk as usize);
        order.keep(&mut rooms.lent_hashes(), chunk, &proof);
    }
    Ok(())
}

/// One ACK for a chunk that is held by now, naming "the biggest complete interval
/// that covers it" (02, No. 2), "its delay the clock minus the timestamp modulo
/// 2^64". The pack has `count` chunks.
fn acknowledge<N: Names>(rooms: &mut Rooms, count: u32, peer: u32, data: &Data) -> usize {
    let (first, last) = biggest_interval(N::ADDRESSING, rooms.map, count, data.chunk);
    let ack = Message::Ack {
        first,
        last,
        delay: data.delay,
    };
    let length = address(rooms.reply, peer);
    append::<N>(rooms.reply, length, &ack, &[])
}

/// The effects of the messages of a datagram of sound layout on its channel, in
/// their order. The pack has `count` chunks.
fn apply<N: Names>(datagram: &[u8], count: u32, row: &mut Row, [has, wants]: [&mut [u32]; 2]) {
    let mut at = MIN_SIZE;
    while let Some(&kind) = datagram.get(at) {
        let len = match wire::effect::<N>(kind, &datagram[at + 1..]) {
            Some((effect, len)) => {
                apply_one::<N>(effect, count, row, has, wants);
                len
            }
            None if kind == kind::INTEGRITY => N::WITH_HASH,
            // DATA, to the datagram's end.
            None => return,
        };
        at += 1 + len;
    }
}

/// The effect of a message.
#[inline(always)]
fn apply_one<N: Names>(
    effect: Effect,
    count: u32,
    row: &mut Row,
    has: &mut [u32],
    wants: &mut [u32],
) {
    match effect {
        Effect::Marks { choke } => row.choked = choke,
        Effect::Nothing => {}
        Effect::Range { kind, first, last } => {
            let last = N::last_inside(last, count);
            if kind == kind::ACK || kind == kind::HAVE {
                set_range(has, first, last);
            }
            if kind == kind::REQUEST {
                set_range(wants, first, last);
            } else {
                clear_range(wants, first, last);
            }
        }
    }
}

/// A datagram of sound layout that is no HANDSHAKE.
struct Came<'d, N> {
    datagram: &'d [u8],
    /// The nodes whose hashes came.
    nodes: &'d Nodes<'d, N>,
    /// The highest chunk that must be in the pack, but that of DATA; 0 without
    /// one.
    highest: u32,
    /// Whether there is a message that has an effect without DATA.
    has_effects: bool,
}
