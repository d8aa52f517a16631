//! Runs of calls on the proved store and on `second`'s: builds, starts and takes,
//! right and wrong. A failure names the seed, which makes the same calls again.

use crate::beside::{least_lengths, refused, Both};
use crate::naming::{Named, MISSING, WRONG};
use crate::packs::{random_rooms, Pack};
use crate::proved::store::{Order, Rooms};
use crate::random::Random;
use crate::takes::Take;
use second::answer;
use second::sha256::Digest;
use std::fmt;

/// Lengths that no order has.
const BAD_LENGTHS: [u32; 3] = [0, 524_289, u32::MAX];

/// How many chunks come to a store that are mostly refused for a hash.
const LACKING: u32 = 40;

const TOO_SMALL: u32 = answer::ROOM_TOO_SMALL as u32;
const BAD_LENGTH: u32 = answer::BAD_LENGTH as u32;

/// How often each number was the answer, and what taking named.
#[derive(Default)]
pub struct Answers {
    pub start: [usize; 13],
    pub build: [usize; 13],
    pub take: [usize; 13],
    pub named: Named,
}

impl fmt::Display for Answers {
    fn fmt(&self, f: &mut fmt::Formatter) -> fmt::Result {
        let (start, build, take) = (self.start, self.build, self.take);
        writeln!(f, "start {start:?}, build {build:?}, take {take:?}")?;
        self.named.fmt(f)
    }
}

/// Calls on stores of packs, from the random numbers of a seed.
pub struct Run<'a> {
    pub seed: u32,
    pub random: Random,
    pub answers: &'a mut Answers,
}

impl Run<'_> {
    /// All calls for one pack.
    pub fn all(&mut self, pack: &Pack) {
        self.builds(pack);
        self.starts(pack);
        self.takes(pack);
        self.takes_under_another_root(pack);
        self.takes_that_lack(pack);
    }

    fn case(&self, pack: &Pack, what: &str) -> String {
        format!("seed {}, length {}, {what}", self.seed, pack.length())
    }

    /// Builds, of which the first is right.
    fn builds(&mut self, pack: &Pack) {
        let length = pack.length();
        let rooms = random_rooms(&mut self.random, length);
        let content = pack.content.as_slice();
        let longer = [content, &[0]].concat();
        self.build(pack, "right", 0, length, &rooms, content);
        for (what, small) in too_small(&rooms, length) {
            self.build(pack, what, TOO_SMALL, length, &small, content);
            self.build(pack, what, BAD_LENGTH, length, &small, &longer);
        }
        for bad in BAD_LENGTHS {
            let what = format!("under the length {bad}");
            self.build(pack, &what, BAD_LENGTH, bad, &rooms, content);
        }
        for other in [&content[1..], &longer, &[]] {
            let what = format!("content of {} bytes", other.len());
            self.build(pack, &what, BAD_LENGTH, length, &rooms, other);
        }
    }

    fn build(
        &mut self,
        pack: &Pack,
        what: &str,
        wanted: u32,
        length: u32,
        rooms: &Rooms,
        content: &[u8],
    ) {
        let case = self.case(pack, &format!("build: {what}"));
        let old_root = std::array::from_fn(|_| self.random.number());
        let built = Both::build(&case, &old_root, length, rooms, content);
        let got = built.err().unwrap_or(0);
        assert_eq!(got, wanted, "{case}: both");
        self.answers.build[got as usize] += 1;
    }

    /// Starts, of which the first is right.
    fn starts(&mut self, pack: &Pack) {
        let length = pack.length();
        let rooms = random_rooms(&mut self.random, length);
        self.start(pack, "right", 0, length, &rooms);
        for (what, small) in too_small(&rooms, length) {
            self.start(pack, what, TOO_SMALL, length, &small);
            self.start(pack, what, BAD_LENGTH, 0, &small);
        }
        for bad in BAD_LENGTHS {
            let what = format!("under the length {bad}");
            self.start(pack, &what, BAD_LENGTH, bad, &rooms);
        }
    }

    fn start(&mut self, pack: &Pack, what: &str, wanted: u32, length: u32, rooms: &Rooms) {
        let case = self.case(pack, &format!("start: {what}"));
        let started = Both::start(&case, pack.built.root(), length, rooms);
        let got = started.err().unwrap_or(0);
        assert_eq!(got, wanted, "{case}: both");
        self.answers.start[got as usize] += 1;
    }

    /// A store in random rooms, which no test refuses.
    fn started(&mut self, pack: &Pack, root: &Digest) -> Both {
        let case = self.case(pack, "start");
        let rooms = random_rooms(&mut self.random, pack.length());
        match Both::start(&case, root, pack.length(), &rooms) {
            Ok(both) => both,
            Err(refusal) => panic!("{case}: both refuse it with {refusal}"),
        }
    }

    /// Chunks right and wrong; then those that are still missing.
    fn takes(&mut self, pack: &Pack) {
        let mut both = self.started(pack, pack.built.root());
        for call in 0..4 * pack.count() + 20 {
            let take = Take::random(&mut self.random, pack, both.second());
            let case = self.case(pack, &format!("take {call}: {}", take.what));
            self.take(&case, &mut both, &take);
            if self.random.one_in(8) {
                self.refused_take(&case, &both, &take);
            }
        }
        let store = both.second();
        let mut missing: Vec<u32> = (0..pack.count()).filter(|&c| !store.holds(c)).collect();
        self.random.shuffle(&mut missing);
        for number in missing {
            let take = Take::right(pack, both.second(), number);
            let case = self.case(pack, &format!("take at last: {}", take.what));
            let answer = self.take(&case, &mut both, &take);
            assert_eq!(answer, 0, "{case}: both");
        }
        let whole = both.second().is_whole() && both.rooms().chunks.starts_with(&pack.content);
        assert!(whole, "{}", self.case(pack, "the pack is not there whole"));
    }

    /// Each chunk of a pack, with what goes out with it: in small packs eight
    /// times, in others of each eighth chunk.
    pub fn chunks_in_turn(&mut self, length: u32) {
        let pack = Pack::new(&mut self.random, length);
        let rooms = random_rooms(&mut self.random, length);
        self.build(&pack, "right", 0, length, &rooms, &pack.content);
        let mut both = self.started(&pack, pack.built.root());
        let count = pack.count();
        for k in 0..count {
            let number = 521 * k % count;
            let takes = match count <= 65 || k % 8 == 0 {
                true => Take::eight(&pack, number, k as usize),
                false => vec![Take::right(&pack, both.second(), number)],
            };
            for take in takes {
                let case = self.case(&pack, &take.what);
                self.take(&case, &mut both, &take);
            }
            let held = both.second().holds(number);
            assert!(held, "{}", self.case(&pack, "a chunk is not held"));
        }
        let whole = both.second().is_whole() && both.rooms().chunks.starts_with(&pack.content);
        assert!(whole, "{}", self.case(&pack, "the pack is not there whole"));
    }

    /// None of the chunks can be taken.
    fn takes_under_another_root(&mut self, pack: &Pack) {
        let root = self.random.digest();
        let mut both = self.started(pack, &root);
        for call in 0..5 {
            let take = Take::random(&mut self.random, pack, both.second());
            let what = format!("take {call} under another root: {}", take.what);
            let case = self.case(pack, &what);
            let answer = self.take(&case, &mut both, &take);
            assert_ne!(answer, 0, "{case}: both");
        }
    }

    /// Chunks that are refused for a hash; now and then a right one.
    fn takes_that_lack(&mut self, pack: &Pack) {
        let mut both = self.started(pack, pack.built.root());
        for call in 0..LACKING {
            let store = both.second();
            let right = self.random.one_in(20);
            let take = match right {
                true => Take::right(pack, store, self.random.below(pack.count())),
                false => Take::lacking(&mut self.random, pack, |node| store.trusts(node)),
            };
            let case = self.case(pack, &format!("take {call} that lacks: {}", take.what));
            let answer = self.take(&case, &mut both, &take);
            assert_eq!(answer == 0, right, "{case}: both");
            assert!(matches!(answer, 0 | MISSING | WRONG), "{case}: both");
        }
    }

    fn take(&mut self, case: &str, both: &mut Both, take: &Take) -> u32 {
        let answer = both.take(case, take);
        if answer.1.is_some() {
            let store = both.second();
            let offer = take.offer(store.count());
            self.answers
                .named
                .add(&offer, |node| store.trusts(node), answer);
        }
        let (number, _) = answer;
        self.answers.take[number as usize] += 1;
        number
    }

    /// The same chunk with a room too small, under a bad length, or both.
    fn refused_take(&mut self, case: &str, both: &Both, take: &Take) {
        let length = both.second().length();
        let small = too_small(both.rooms(), length);
        let (room, small) = &small[self.random.place(small.len())];
        let bad = self.random.one_of(&BAD_LENGTHS);
        let (length, rooms, room, wanted) = match self.random.below(4) {
            0 => (bad, both.rooms(), "right rooms", BAD_LENGTH),
            1 => (bad, small, *room, BAD_LENGTH),
            _ => (length, small, *room, TOO_SMALL),
        };
        let root = both.root();
        let case = format!("{case}; under the length {length}, {room}");
        refused(&case, wanted, rooms, |rooms| {
            take.to_proved(Order { root, length }, rooms)
        });
        self.answers.take[wanted as usize] += 1;
    }
}

/// The rooms with one of them an element too small.
fn too_small(rooms: &Rooms, length: u32) -> [(&'static str, Rooms); 4] {
    let [chunks, map, hashes, trusted] = least_lengths(length);
    let mut small = [
        "a byte of chunks too few",
        "a word of the map too few",
        "a word of hashes too few",
        "a word of trusted nodes too few",
    ]
    .map(|what| (what, rooms.clone()));
    small[0].1.chunks.truncate(chunks - 1);
    small[1].1.map.truncate(map - 1);
    small[2].1.hashes.truncate(hashes - 1);
    small[3].1.trusted.truncate(trusted - 1);
    small
}
