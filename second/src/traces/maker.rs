//! A trace in the making.

use super::kinds::{Kind, PAIRS};
use super::pack::Pack;
use super::Trace;
use crate::channel::CHANNELS;
use crate::random::Random;
use crate::replay::Session;

/// A trace so far, and the store that answers it.
pub struct Maker {
    pub random: Random,
    pub pack: Pack,
    pub session: Session,
    /// Which case digits have.
    pub case: Case,
    bytes: Vec<u8>,
    kinds: Vec<Kind>,
    goal: Goal,
    /// In which order chunks come.
    pub rising: Option<bool>,
}

/// The case of digits.
#[derive(Clone, Copy)]
pub enum Case {
    Lower,
    Upper,
    Mixed,
}

/// What a trace is mainly about.
#[derive(Clone, Copy, PartialEq)]
enum Goal {
    Download,
    Channels,
    Faults,
    Lines,
}

/// What a line is about.
#[derive(Clone, Copy)]
enum Group {
    Chunk,
    Message,
    Handshake,
    Fault,
    Pair,
    Mutated,
    Line,
}

impl Goal {
    /// How many lines of 100 are about what.
    fn shares(self) -> [(Group, usize); 7] {
        let shares = match self {
            Goal::Download => [55, 9, 4, 12, 13, 3, 4],
            Goal::Channels => [12, 12, 42, 12, 17, 2, 3],
            Goal::Faults => [17, 5, 5, 36, 28, 5, 4],
            Goal::Lines => [14, 8, 6, 13, 14, 7, 38],
        };
        let groups = [
            Group::Chunk,
            Group::Message,
            Group::Handshake,
            Group::Fault,
            Group::Pair,
            Group::Mutated,
            Group::Line,
        ];
        std::array::from_fn(|index| (groups[index], shares[index]))
    }
}

impl Maker {
    pub fn new(seed: u64) -> Self {
        let mut random = Random::new(seed);
        let pack = Pack::random(&mut random);
        let line = pack.order_line();
        let session = Session::start(line.as_bytes()).expect("the order can be started");
        let case = random.one_of(&[Case::Lower, Case::Lower, Case::Upper, Case::Mixed]);
        let goal = match random.below(20) {
            0..9 => Goal::Download,
            9..13 => Goal::Channels,
            13..18 => Goal::Faults,
            _ => Goal::Lines,
        };
        let rising = random.one_of(&[Some(true), Some(false), None, None]);
        Maker {
            random,
            pack,
            session,
            case,
            bytes: Vec::new(),
            kinds: Vec::new(),
            goal,
            rising,
        }
    }

    pub fn trace(mut self) -> Trace {
        if self.random.one_in(20) {
            let line = self.bad_order();
            self.push(Kind::BadOrder, &line);
            self.unread_lines();
        } else {
            let mut line = self.pack.order_line().into_bytes();
            self.set_case(&mut line);
            self.push(Kind::GoodOrder, &line);
            self.lines();
        }
        self.end();
        Trace {
            bytes: self.bytes,
            kinds: self.kinds,
        }
    }

    /// Puts a line and its line feed behind what is there.
    fn push(&mut self, kind: Kind, line: &[u8]) {
        self.bytes.extend(line);
        self.bytes.push(b'\n');
        self.kinds.push(kind);
    }

    /// The lines behind line one.
    fn lines(&mut self) {
        let open = match self.goal {
            Goal::Channels if !self.random.one_in(3) => CHANNELS,
            _ => self.random.below(5),
        };
        for _ in 0..open {
            self.add(Kind::Opening);
        }
        // Before the first chunk is taken, every hash is needed.
        while self.random.one_in(3) {
            let kind = self.random.one_of(&Kind::NEEDING);
            self.add(kind);
        }
        let count = 8 + self.random.below(32 + self.pack.count() as usize);
        for _ in 0..count {
            self.add_any();
        }
        let finish = match self.goal {
            Goal::Download => !self.random.one_in(4),
            _ => self.random.one_in(3),
        };
        if finish {
            self.finish();
        }
    }

    /// Adds a line of any kind that can be made now.
    fn add_any(&mut self) {
        if self.session.open_channels().is_empty() && !self.random.one_in(4) {
            self.add(Kind::Opening);
            return;
        }
        // Some kinds need what is not there: a missing hash, or all rows in use.
        for _ in 0..8 {
            let kind = self.kind();
            if self.add(kind) {
                return;
            }
        }
    }

    /// A kind as the goal has it.
    fn kind(&mut self) -> Kind {
        let mut place = self.random.below(100);
        let shares = self.goal.shares();
        let group = shares.iter().find(|(_, share)| {
            let here = place < *share;
            place = place.wrapping_sub(*share);
            here
        });
        match group.map_or(Group::Chunk, |(group, _)| *group) {
            Group::Chunk => self.random.one_of(&Kind::CHUNKS),
            Group::Message if self.random.one_in(10) => Kind::Fullest,
            Group::Message => self
                .random
                .one_of(&[Kind::Keepalive, Kind::Plain, Kind::Plain]),
            Group::Handshake => self.handshake_kind(),
            // A hash is needed only while few chunks are held.
            Group::Fault if self.random.one_in(4) => self.random.one_of(&Kind::NEEDING),
            Group::Fault => self.random.one_of(&Kind::FAULTS),
            Group::Pair => {
                let (first, second) = self.random.one_of(&PAIRS);
                Kind::Both(first, second)
            }
            Group::Mutated => self.random.one_of(&Kind::MUTATED),
            Group::Line if self.random.one_in(6) => Kind::Short,
            Group::Line => self.random.one_of(&Kind::LINES),
        }
    }

    /// A HANDSHAKE. Where all rows are in use, mostly one that this refuses.
    fn handshake_kind(&mut self) -> Kind {
        if self.is_full() && !self.random.one_in(4) {
            return self.random.one_of(&[
                Kind::Full,
                Kind::Full,
                Kind::Both(2, 6),
                Kind::Both(3, 6),
                Kind::Both(4, 6),
                Kind::Both(5, 6),
            ]);
        }
        match self.random.below(4) {
            0 => self.random.one_of(&Kind::HANDSHAKES),
            1 => Kind::Again,
            _ => Kind::Opening,
        }
    }

    /// Adds a line of a kind, or of the nearest one; not if it cannot be made
    /// now.
    fn add(&mut self, kind: Kind) -> bool {
        let Some((kind, line)) = self.line(kind) else {
            return false;
        };
        self.session.answer(&line);
        self.push(kind, &line);
        true
    }

    /// Brings the chunks that are missing.
    fn finish(&mut self) {
        if self.session.open_channels().is_empty() {
            self.add(Kind::Opening);
        }
        for _ in 0..self.pack.count() {
            if self.random.one_in(6) {
                self.add_any();
            }
            let kind = self.random.one_of(&Kind::CHUNKS[..3]);
            if !self.add(kind) {
                return;
            }
        }
    }

    /// Lines that would be answered if line one were good.
    fn unread_lines(&mut self) {
        for _ in 0..self.random.below(4) {
            if let Some((_, line)) = self.line(Kind::Opening) {
                self.bytes.extend(line);
                self.bytes.push(b'\n');
            }
        }
    }

    /// The input's end: an empty line more, or the last line feed dropped.
    fn end(&mut self) {
        if self.kinds[0] == Kind::GoodOrder && self.random.one_in(12) {
            self.push(Kind::EmptyLine, &[]);
        } else if self.random.one_in(4) && !self.bytes.ends_with(b"\n\n") {
            // An empty line has nothing but its line feed, and would be none.
            self.bytes.pop();
        }
    }
}
