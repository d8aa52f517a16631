//! The proved entry points and `second`'s side by side: each call goes to both,
//! and then the number, the node that it names, the reply's length, the state and
//! every byte and word of every room must be the same. What is wanted is what
//! `second` gives. A difference panics with the case, the call, and the first place
//! where each thing differs.

use crate::beside::difference;
use crate::calls::{Call, Told};
use crate::naming;
use crate::rooms::Rooms;
use crate::words::{digest, words};
use ppspp::sizes::STATE_WORDS;
use second::channel::{Phase, Row, State, CHANNELS};
use second::wire::Addressing;
use second::{answer, hex};

/// The places of a state's words: the layout's version, the root, the length,
/// the method's number, and the rows, of four words each.
pub const VERSION: usize = 0;
pub const ROOT: usize = 1;
pub const LENGTH: usize = 9;
pub const METHOD: usize = 10;
pub const ROWS: usize = 11;

/// The version of the words. A state of another one has no order.
pub const THIS_VERSION: u32 = 2;

/// What the words of a state are like.
#[derive(Clone, Copy, Debug, PartialEq, Eq)]
pub enum Words {
    /// Of another version, or of a method that is none: there is no order.
    OtherVersion,
    OtherMethod,
    /// There is an order, and the words are those that calls write, or others.
    Canonical,
    Uncanonical,
}

/// A store of each, with the same state and the same in their rooms.
#[derive(Clone)]
pub struct Both {
    /// The proved store's state, and what stands behind it.
    words: Vec<u32>,
    rooms: Rooms,
    state: State,
    second: Rooms,
}

impl Both {
    /// With the state of these words, at least [`STATE_WORDS`], and such rooms.
    pub fn new(words: Vec<u32>, rooms: Rooms) -> Self {
        Both {
            state: state_of(&words),
            words,
            second: rooms.clone(),
            rooms,
        }
    }

    /// Without an order.
    pub fn unstarted(rooms: Rooms) -> Self {
        Both::new(vec![0; STATE_WORDS], rooms)
    }

    /// Has both make a call, and gives what they give back.
    pub fn call(&mut self, case: &str, call: &Call) -> Told {
        let before = self.clone();
        let told = call.to_proved(&mut self.words, &mut self.rooms);
        let wanted = call.to_second(&mut self.state, &mut self.second);
        let differing = if wanted.number == 0 {
            self.after_done(&before, call)
        } else {
            self.after_refusal(&before)
        };
        assert!(
            told == wanted && differing.is_empty(),
            "{case}: {call}\n{}:\nthe proved code gives {told:?}, wanted is {wanted:?}; what \
             differs: {differing:?}",
            before.about(call)
        );
        naming::check(case, wanted.answer());
        wanted
    }

    /// What a call meets: the datagram that it adds to, or the state.
    fn about(&self, call: &Call) -> String {
        let reply = &self.rooms.reply;
        match call {
            Call::Add { len, .. } => {
                let so_far = reply.get(..*len).unwrap_or(reply);
                format!("behind {}", hex::encode(so_far))
            }
            _ => format!("in the state {:?}", self.state),
        }
    }

    /// What differs after a call that was done: the state's words, and the
    /// rooms. A start and a building write all of the words; any other call
    /// those of the rows that it changes, and leaves the others as they are, also
    /// those that no call writes.
    fn after_done(&self, before: &Both, call: &Call) -> Vec<String> {
        let mut wanted = before.words.clone();
        let new = words_of(&self.state);
        if call.starts() {
            wanted[..STATE_WORDS].copy_from_slice(&new);
        }
        for i in 0..CHANNELS {
            if self.state.rows[i] != before.state.rows[i] {
                let at = ROWS + 4 * i;
                wanted[at..at + 4].copy_from_slice(&new[at..at + 4]);
            }
        }
        let mut differing = differences(&self.rooms, &self.second);
        differing.extend(difference("state", &self.words, &wanted));
        differing
    }

    /// What differs after a refused call, which leaves all as it was, for
    /// `second` too.
    fn after_refusal(&self, before: &Both) -> Vec<String> {
        let mut differing = differences(&self.rooms, &before.rooms);
        differing.extend(difference("state", &self.words, &before.words));
        differing.extend(differences(&self.second, &before.second));
        let states = [&[&self.state], &[&before.state]];
        differing.extend(difference("second's state", states[0], states[1]));
        differing
    }

    /// The proved call alone in a state room of so many words, too few, which it
    /// must refuse, leaving all as it is. Gives the number.
    pub fn call_short(&self, case: &str, call: &Call, count: usize) -> u32 {
        let before = &self.words[..count];
        let (mut words, mut rooms) = (before.to_vec(), self.rooms.clone());
        let told = call.to_proved(&mut words, &mut rooms);
        let wanted = self.short_number(call);
        let case = format!("{case}: {call}, with {count} words of state");
        assert_eq!(told, Told::number(wanted), "{case}");
        assert_eq!(words, before, "{case}");
        let differing = differences(&rooms, &self.rooms);
        assert!(differing.is_empty(), "{case}: {differing:?}");
        wanted
    }

    /// The number for a state room that is too short: 11, but before it 12 where
    /// a start or a building is refused with that, which looks at no room.
    fn short_number(&self, call: &Call) -> u32 {
        let (mut state, mut rooms) = (self.state.clone(), self.second.clone());
        let bad_order = u32::from(answer::BAD_LENGTH);
        if call.starts() && call.to_second(&mut state, &mut rooms).number == bad_order {
            return bad_order;
        }
        answer::ROOM_TOO_SMALL.into()
    }

    /// Changes both states and rooms, the states by their words.
    pub fn change(&mut self, change: impl FnOnce(&mut [u32], &mut Rooms)) {
        change(&mut self.words, &mut self.rooms);
        self.state = state_of(&self.words);
        self.second = self.rooms.clone();
    }

    pub fn state(&self) -> &State {
        &self.state
    }

    pub fn rooms(&self) -> &Rooms {
        &self.rooms
    }

    /// The words of the state, and what stands behind it.
    pub fn words(&self) -> &[u32] {
        &self.words
    }

    /// What they are like.
    pub fn kind(&self) -> Words {
        if self.words[VERSION] != THIS_VERSION {
            return Words::OtherVersion;
        }
        if Addressing::of(self.words[METHOD]).is_none() {
            return Words::OtherMethod;
        }
        match self.words[..STATE_WORDS] == words_of(&self.state) {
            true => Words::Canonical,
            false => Words::Uncanonical,
        }
    }

    /// The first bytes of the reply room.
    pub fn reply(&self, told: &Told) -> Vec<u8> {
        self.rooms.reply[..told.len].to_vec()
    }

    /// Whether a node's hash is trusted.
    pub fn trusts(&self, node: u64) -> bool {
        is_set(&self.rooms.trusted, node as usize)
    }

    /// Whether a chunk is held.
    pub fn holds(&self, chunk: u32) -> bool {
        is_set(&self.rooms.map, chunk as usize)
    }
}

/// A bit of a row, low bit first; past the words none is set.
pub fn is_set(row: &[u32], bit: usize) -> bool {
    row.get(bit / 32)
        .is_some_and(|word| word >> (bit % 32) & 1 == 1)
}

/// The state of the first words, in `second`'s form. One of another version, or
/// of a method that is none, is that of a store without an order.
pub fn state_of(words: &[u32]) -> State {
    let addressing = match Addressing::of(words[METHOD]) {
        Some(addressing) if words[VERSION] == THIS_VERSION => addressing,
        _ => return State::default(),
    };
    let row = |i: usize| {
        let row = &words[ROWS + 4 * i..][..4];
        Row {
            phase: match row[0] {
                1 => Phase::Calling,
                2 => Phase::Open,
                _ => Phase::Free,
            },
            id: row[1],
            peer: row[2],
            choked: row[3] == 1,
        }
    };
    State {
        root: digest(&std::array::from_fn(|i| words[ROOT + i])),
        length: words[LENGTH],
        addressing,
        rows: std::array::from_fn(row),
    }
}

/// The words of a state.
pub fn words_of(state: &State) -> [u32; STATE_WORDS] {
    let mut all = [0; STATE_WORDS];
    all[VERSION] = THIS_VERSION;
    all[ROOT..LENGTH].copy_from_slice(&words(&state.root));
    all[LENGTH] = state.length;
    all[METHOD] = state.addressing.number();
    for i in 0..CHANNELS {
        let row = &state.rows[i];
        let phase = match row.phase {
            Phase::Free => 0,
            Phase::Calling => 1,
            Phase::Open => 2,
        };
        all[ROWS + 4 * i..][..4].copy_from_slice(&[phase, row.id, row.peer, row.choked.into()]);
    }
    all
}

/// Where each room differs from the one that is wanted.
fn differences(got: &Rooms, wanted: &Rooms) -> Vec<String> {
    let all = [
        difference("chunks", &got.chunks, &wanted.chunks),
        difference("map", &got.map, &wanted.map),
        difference("hashes", &got.hashes, &wanted.hashes),
        difference("trusted", &got.trusted, &wanted.trusted),
        difference("has", &got.has, &wanted.has),
        difference("wants", &got.wants, &wanted.wants),
        difference("reply", &got.reply, &wanted.reply),
    ];
    all.into_iter().flatten().collect()
}
