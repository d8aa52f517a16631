//! The search: what is tried, and the worst of what was found.

use crate::candidate::{Candidate, Run};
use crate::kinds;
use crate::scenes::{addressing, hashed, Scene, Stage, COPIES};
use harness::packets::ack;
use harness::random::Random;
use second::wire::MIN_SIZE;
use std::collections::BTreeMap;
use std::time::{Duration, Instant};

/// How long the worst ones are changed.
const CLIMB: Duration = Duration::from_secs(11);

/// How often a datagram is measured, before it counts as worse than those that are
/// kept: after each of these runs, only such a one goes on.
const RUNS: [usize; 3] = [2, 8, 30];

/// How many are kept of an answer.
const KEPT: usize = 4;

/// The reply's length where DATA was stored: the destination and an ACK.
fn ack_size() -> usize {
    MIN_SIZE + ack(addressing(), 0, 0, 0).len()
}

/// The answers, each of which has a worst datagram of its own.
#[derive(Clone, Copy, Debug, PartialEq, Eq, PartialOrd, Ord)]
pub enum Class {
    /// Refused with this number.
    Refused(u32),
    /// Taken, without DATA.
    Plain,
    /// Taken, with DATA.
    Stored,
    /// Refused with 10, for the last chunk, of one byte.
    ShortRefused,
    /// The same chunk taken.
    ShortStored,
}

impl Class {
    /// That of an answer. Of a pack with a short last chunk only that one matters.
    fn of(scene: Scene, (number, length): (u32, usize)) -> Option<Class> {
        match (scene, number) {
            (Scene::Short, 10) => Some(Class::ShortRefused),
            (Scene::Short, 0) if length == ack_size() => Some(Class::ShortStored),
            (Scene::Short, _) => None,
            (_, 0) if length == ack_size() => Some(Class::Stored),
            (_, 0) => Some(Class::Plain),
            _ => Some(Class::Refused(number)),
        }
    }
}

/// What hashing takes, in nanoseconds.
struct Hashing {
    empty: f64,
    block: f64,
}

impl Hashing {
    /// Of nothing, and of the longest datagram.
    fn measured() -> Self {
        let best = |size| {
            let datagrams = vec![vec![7; size]; COPIES];
            let times = (0..500).map(|_| hashed(&datagrams));
            per_copy(times.min().unwrap_or_default())
        };
        let (empty, full) = (best(0), best(2_048));
        Hashing {
            empty,
            block: (full - empty) / 32.0,
        }
    }

    /// Of so many bytes, behind which at least nine more make whole blocks.
    fn of(&self, size: usize) -> f64 {
        self.empty + self.block * ((size + 8) / 64) as f64
    }
}

/// The nanoseconds of one datagram of a run.
pub fn per_copy(time: Duration) -> f64 {
    time.as_nanos() as f64 / COPIES as f64
}

/// The most that a datagram is to take, if hashing as many bytes takes so long.
pub fn bar(hashing: f64) -> f64 {
    2.0 * hashing + 100.0
}

/// A datagram, and which part of the bar it took.
pub struct Found {
    pub candidate: Candidate,
    part: f64,
}

pub struct Search {
    pub stages: [Stage; Scene::ALL.len()],
    pub random: Random,
    pub tried: usize,
    /// The worst ones of each answer, the worst first.
    pub worst: BTreeMap<Class, Vec<Found>>,
    hashing: Hashing,
}

impl Search {
    pub fn new() -> Self {
        Search {
            stages: Scene::ALL.map(Stage::new),
            random: Random::new(0),
            tried: 0,
            worst: BTreeMap::new(),
            hashing: Hashing::measured(),
        }
    }

    /// Tries datagrams of every kind.
    pub fn begin(&mut self) {
        for candidate in kinds::all(&mut self.random, &self.stages) {
            self.try_one(candidate);
        }
    }

    /// Tries changes of the worst ones.
    pub fn climb(&mut self) {
        let start = Instant::now();
        while start.elapsed() < CLIMB {
            let [one, other] = [(); 2].map(|()| self.any_found().clone());
            let changed = one.changed(&mut self.random, &other);
            self.try_one(changed);
        }
    }

    /// One that is kept, of any answer.
    fn any_found(&mut self) -> &Candidate {
        let class = self.random.place(self.worst.len());
        let found = self.worst.values().nth(class).expect("a class");
        &found[self.random.place(found.len())].candidate
    }

    /// Measures a datagram and keeps it if it is one of the worst.
    fn try_one(&mut self, candidate: Candidate) {
        self.tried += 1;
        let stage = &mut self.stages[candidate.scene as usize];
        let answer = stage.answer(candidate.id, &candidate.datagram);
        let Some(class) = Class::of(candidate.scene, answer) else {
            return;
        };
        let bar = bar(self.hashing.of(candidate.datagram.len()));
        let kept = self.worst.entry(class).or_default();
        let least = match kept.get(KEPT - 1) {
            Some(found) => found.part,
            None => 0.0,
        };
        let mut run = Run::of(&candidate);
        let mut best = Duration::MAX;
        for times in RUNS {
            for _ in 0..times {
                run.mix(&mut self.random);
                best = best.min(stage.proved(candidate.id, &run.datagrams));
            }
            if per_copy(best) / bar <= least {
                return;
            }
        }
        let part = per_copy(best) / bar;
        let place = kept.partition_point(|found| found.part >= part);
        kept.insert(place, Found { candidate, part });
        kept.truncate(KEPT);
    }
}
