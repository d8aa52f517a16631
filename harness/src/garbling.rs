//! Changes of a store's state and rooms that no call makes, and of datagrams.

use crate::channels::{Both, LENGTH, METHOD, ROOT, ROWS, VERSION};
use crate::packets::CHOKE;
use crate::random::Random;
use crate::rooms::Rooms;
use second::channel::CHANNELS;

/// Changes something in the state or in a room of a store of a pack of such a
/// length.
pub fn garble(random: &mut Random, store: &mut Both, length: u32) {
    match random.below(17) {
        0..4 => {
            let row = random.place(CHANNELS);
            garble_row(random, store, row);
        }
        4 => (0..CHANNELS).for_each(|row| garble_row(random, store, row)),
        5 => {
            let other = 1 + random.below(2 * length);
            let length = random.one_of(&[0, 524_289, u32::MAX, other, other]);
            store.change(|state, _| state[LENGTH] = length);
        }
        6 => {
            let at = ROOT + random.place(8);
            store.change(|state, _| state[at] ^= 1);
        }
        7 => {
            let (at, bit) = (random.place(64), 1 << random.below(8));
            store.change(|_, rooms| rooms.reply[at] ^= bit);
        }
        8 | 9 => {
            // Where it was another one, 2 brings the state back; so may a method.
            let version = random.one_of(&[0, 1, 2, 2, 3, 258, 1 << 25, u32::MAX]);
            store.change(|state, _| state[VERSION] = version);
        }
        10 | 11 => {
            let method = random.one_of(&[0, 0, 1, 2, 2, 3, 4, 256, 258, u32::MAX]);
            store.change(|state, _| state[METHOD] = method);
        }
        room => {
            let (at, bit) = (random.number() as usize, 1 << random.below(32));
            store.change(|_, rooms| {
                let words = &mut word_rooms(rooms)[room as usize - 12];
                let at = at % words.len();
                words[at] ^= bit;
            });
        }
    }
}

/// In the map of a store of so many chunks clears the bits of one or of a few, so
/// that they may come once more, or sets those past the last one in its word.
pub fn garble_map(random: &mut Random, store: &mut Both, count: u32) {
    let first = random.below(count);
    let chunks = random.one_of(&[0, 1, 1, 1, 2, 5]);
    store.change(|_, rooms| {
        for chunk in first..count.min(first + chunks) {
            rooms.map[chunk as usize / 32] &= !(1 << (chunk % 32));
        }
        if chunks == 0 {
            let [word, bits] = [(count - 1) / 32, (count - 1) % 32];
            rooms.map[word as usize] |= (u32::MAX - 1) << bits;
        }
    });
}

/// Anything in a row: IDs that are 0 or in use elsewhere, peers that are 0,
/// phases and marks that no call writes.
pub fn garble_row(random: &mut Random, store: &mut Both, row: usize) {
    let another = random.one_of(&store.state().rows).id;
    let words = [
        random.one_of(&[0, 0, 1, 2, 2, 2, 3, 258, u32::MAX]),
        random.one_of(&[0, another, 1, 2, 3]),
        random.one_of(&[0, 5, 6]),
        random.one_of(&[0, 1, 1, 2, 7]),
    ];
    store.change(|state, _| state[ROWS + 4 * row..][..4].copy_from_slice(&words));
}

/// The rooms that have bits or hashes.
fn word_rooms(rooms: &mut Rooms) -> [&mut Vec<u32>; 5] {
    [
        &mut rooms.map,
        &mut rooms.hashes,
        &mut rooms.trusted,
        &mut rooms.has,
        &mut rooms.wants,
    ]
}

/// A datagram, in one of ten cases cut, changed or longer.
pub fn spoiled(random: &mut Random, mut datagram: Vec<u8>) -> Vec<u8> {
    match random.below(60) {
        0 | 1 => datagram.truncate(random.place(datagram.len() + 1)),
        2 if !datagram.is_empty() => {
            let at = random.place(datagram.len());
            datagram[at] ^= 1 << random.below(8);
        }
        3 => {
            let more = 1 + random.place(20);
            datagram.extend(random.bytes(more));
        }
        4 => datagram.resize(2_040 + random.place(20), CHOKE),
        5 => datagram.truncate(random.place(5)),
        _ => {}
    }
    datagram
}
