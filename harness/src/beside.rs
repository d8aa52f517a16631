//! The proved store and `second`'s side by side: each call goes to both, and
//! then the answers, with the nodes that they name, and every room must be the
//! same. What is wanted is what `second` gives. A difference panics with the case,
//! both answers, and the first place where each room differs.

use crate::naming::{self, Answer};
use crate::proved::store::{self as proved, Order, Rooms};
use crate::proved::Words;
use crate::takes::Take;
use crate::words::{digest, words};
use second::sha256::Digest;
use second::store::{Rooms as SecondRooms, Store};
use second::{answer, tree};
use std::fmt::Debug;

/// Two stores under one order, with the same in their rooms.
#[derive(Clone)]
pub struct Both {
    root: Words,
    rooms: Rooms,
    second: Store,
}

impl Both {
    /// Starts both in such rooms, or gives the number that refuses it.
    pub fn start(case: &str, root: &Digest, length: u32, before: &Rooms) -> Result<Self, u32> {
        let root_words = words(root);
        let mut rooms = before.clone();
        let order = Order {
            root: &root_words,
            length,
        };
        let got = proved::start(order, &mut rooms);
        let wanted = Store::start_in(second_rooms(before), *root, length);
        Self::after(case, got, wanted, length, rooms, before)
    }

    /// Builds both in such rooms, or gives the number that refuses it. The
    /// proved store writes the root over these words.
    pub fn build(
        case: &str,
        old_root: &Words,
        length: u32,
        before: &Rooms,
        content: &[u8],
    ) -> Result<Self, u32> {
        let mut root = *old_root;
        let mut rooms = before.clone();
        let got = proved::build(&mut root, length, &mut rooms, content);
        let wanted = Store::build_in(second_rooms(before), length, content);
        let both = Self::after(case, got, wanted, length, rooms, before);
        let wanted = both.as_ref().map_or(*old_root, |both| both.root);
        assert_eq!(root, wanted, "{case}: both answer {got}, the root differs");
        both
    }

    /// What both are after a start or a build that `second` gives this for.
    fn after(
        case: &str,
        got: u32,
        wanted: Result<Store, u8>,
        length: u32,
        rooms: Rooms,
        before: &Rooms,
    ) -> Result<Self, u32> {
        match wanted.and_then(|second| in_rows(second, before, length)) {
            Ok(second) => {
                let wanted = rooms_of(&second, before);
                compare(case, [(got, None), (0, None)], &rooms, &wanted);
                let root = words(second.root());
                Ok(Both {
                    root,
                    rooms,
                    second,
                })
            }
            Err(refusal) => {
                let answers = [got, refusal.into()].map(|number| (number, None));
                compare(case, answers, &rooms, before);
                Err(refusal.into())
            }
        }
    }

    /// Has both take a chunk, and gives the answer.
    pub fn take(&mut self, case: &str, take: &Take) -> Answer {
        let before = self.rooms.clone();
        let order = Order {
            root: &self.root,
            length: self.second.length(),
        };
        let got = take.to_proved(order, &mut self.rooms);
        let wanted = take.to_second(&mut self.second);
        let answers = [got, wanted];
        compare(case, answers, &self.rooms, &rooms_of(&self.second, &before));
        if wanted.0 != 0 {
            compare(case, answers, &self.rooms, &before);
        }
        naming::check(case, wanted);
        wanted
    }

    pub fn root(&self) -> &Words {
        &self.root
    }

    pub fn rooms(&self) -> &Rooms {
        &self.rooms
    }

    pub fn second(&self) -> &Store {
        &self.second
    }
}

/// A call of the proved store alone, which must refuse it with this number, name
/// no node, and leave the rooms as they are.
pub fn refused(case: &str, wanted: u32, before: &Rooms, call: impl FnOnce(&mut Rooms) -> Answer) {
    let mut rooms = before.clone();
    let got = call(&mut rooms);
    compare(case, [got, (wanted, None)], &rooms, before);
}

/// The bytes of the chunk room and the words of the others, at least, for a
/// pack of a length: rows of N bits for the map and of two for each leaf place
/// for the trusted nodes, in whole words, and 16 words of hashes a leaf place.
pub fn least_lengths(length: u32) -> [usize; 4] {
    let count = tree::chunk_count(length);
    let places = tree::leaf_places(count);
    let row = |bits: u32| bits.div_ceil(32) as usize;
    [
        length as usize,
        row(count),
        16 * places as usize,
        row(2 * places),
    ]
}

/// `second` keeps the map and the trusted nodes in rows of its own, so only
/// here can they be too small.
fn in_rows(second: Store, rooms: &Rooms, length: u32) -> Result<Store, u8> {
    let [_, map, _, trusted] = least_lengths(length);
    if rooms.map.len() < map || rooms.trusted.len() < trusted {
        return Err(answer::ROOM_TOO_SMALL);
    }
    Ok(second)
}

/// The rooms that `second` has too. Words past the last whole hash are left out.
fn second_rooms(rooms: &Rooms) -> SecondRooms {
    SecondRooms {
        chunks: rooms.chunks.clone(),
        hashes: rooms.hashes.as_chunks().0.iter().map(digest).collect(),
    }
}

/// The proved store's rooms as `second`'s state wants them. What lies past the
/// rows is as it was before.
fn rooms_of(store: &Store, before: &Rooms) -> Rooms {
    let places = tree::leaf_places(store.count());
    let map: Vec<bool> = (0..store.count()).map(|c| store.holds(c)).collect();
    let trusted: Vec<bool> = (0..2 * u64::from(places))
        .map(|b| store.trusts(b))
        .collect();
    let mut hashes: Vec<u32> = store.hashes().iter().flat_map(words).collect();
    hashes.extend_from_slice(&before.hashes[hashes.len()..]);
    Rooms {
        chunks: store.chunks().to_vec(),
        map: row(&map, &before.map),
        hashes,
        trusted: row(&trusted, &before.trusted),
    }
}

/// Bits in whole words, low bit first, and what was there before behind them.
fn row(bits: &[bool], before: &[u32]) -> Vec<u32> {
    let word = |bits: &[bool]| {
        let bits = bits.iter().rev();
        bits.fold(0, |word, &bit| 2 * word + u32::from(bit))
    };
    let mut words: Vec<u32> = bits.chunks(32).map(word).collect();
    words.extend_from_slice(&before[words.len()..]);
    words
}

/// Both answers are the same, and the proved store's rooms are as wanted.
fn compare(case: &str, [got, wanted]: [Answer; 2], rooms: &Rooms, wanted_rooms: &Rooms) {
    let differing = [
        difference("chunks", &rooms.chunks, &wanted_rooms.chunks),
        difference("map", &rooms.map, &wanted_rooms.map),
        difference("hashes", &rooms.hashes, &wanted_rooms.hashes),
        difference("trusted", &rooms.trusted, &wanted_rooms.trusted),
    ];
    let differing: Vec<String> = differing.into_iter().flatten().collect();
    assert!(
        got == wanted && differing.is_empty(),
        "{case}: the proved store answers {got:?}, wanted is {wanted:?}; rooms that differ: {differing:?}"
    );
}

/// The first place where a room differs.
pub fn difference<T: PartialEq + Debug>(name: &str, got: &[T], wanted: &[T]) -> Option<String> {
    if got == wanted {
        return None;
    }
    let at = got
        .iter()
        .zip(wanted)
        .position(|(got, wanted)| got != wanted);
    Some(match at {
        Some(at) => format!("{name}[{at}] is {:?}, not {:?}", got[at], wanted[at]),
        None => format!("{name} has {} elements, not {}", got.len(), wanted.len()),
    })
}
