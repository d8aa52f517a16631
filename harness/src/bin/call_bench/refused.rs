//! Chunks that a fresh store refuses for a hash, with the node (02, No. 3): with 9,
//! where the first needed hash is missing, the last one, or all; with 10, where a
//! peak or the chunk is wrong. It is chunk 0 of 511, which needs the most hashes, and
//! of 512, which needs no peak.

use crate::jobs::{take_as, written, Ready, Task, CHANNEL};
use harness::bench::{self, Job, Unit, NAMES};
use harness::calls::Call;
use harness::channels::{words_of, Both};
use harness::naming::{Offer, MISSING, WRONG};
use harness::packets::{datagram, is_integrity, messages, node_of};
use harness::packs::Pack;
use harness::random::Random;
use second::tree;
use second::wire::Addressing;
use std::time::Duration;

/// How many datagrams a run takes in.
const DATAGRAMS: usize = 100;

/// How long it takes.
const RUN: Duration = Duration::from_secs(20);

/// Measures and prints.
pub fn measure() {
    let under = [(Addressing::Ranges, ""), (Addressing::Bins, ", under bins")];
    let counts =
        under.map(|(addressing, end)| [511, 512].map(|count| OfCount::new(addressing, count, end)));
    let jobs = counts.iter().flatten().flat_map(OfCount::jobs).collect();
    let caption = "Chunk 0 of N, refused for a hash by a fresh store";
    bench::measure(caption, &NAMES, jobs, RUN);
}

/// What is refused, and what it gets.
struct Refusal {
    name: String,
    number: u32,
    node: u64,
    datagrams: Vec<Vec<u8>>,
}

/// A fresh store of a pack, and what it refuses.
struct OfCount {
    fresh: Ready,
    refusals: Vec<Refusal>,
}

impl OfCount {
    /// Under a method; each name ends so.
    fn new(addressing: Addressing, count: u32, end: &str) -> Self {
        let pack = Pack::new(&mut Random::new(count), 1_024 * count);
        let sent = Sent {
            addressing,
            messages: messages(addressing, &written(addressing, &pack, &[0])[0]),
        };
        let refusal = |(what, number, node, messages): Case| Refusal {
            name: format!("N = {count}, {number}: {what}{end}"),
            number,
            node,
            datagrams: vec![datagram(CHANNEL, &messages); DATAGRAMS],
        };
        let of_count = OfCount {
            fresh: Ready::new(addressing, &pack, false),
            refusals: sent.cases(count).into_iter().map(refusal).collect(),
        };
        of_count.refusals.iter().for_each(|one| of_count.check(one));
        of_count
    }

    /// Both programs refuse it so.
    fn check(&self, refusal: &Refusal) {
        let Ready { state, rooms } = self.fresh.clone();
        let mut store = Both::new(words_of(&state).to_vec(), rooms);
        let take = Call::Take {
            clock: 0,
            id: 0,
            datagram: refusal.datagrams[0].clone(),
        };
        let answer = store.call(&refusal.name, &take).answer();
        assert_eq!(answer, (refusal.number, Some(refusal.node)));
    }

    fn jobs(&self) -> impl Iterator<Item = Job<'_>> {
        self.refusals.iter().map(|refusal| {
            let task = Task {
                name: refusal.name.clone(),
                unit: Unit::Nanoseconds(DATAGRAMS),
                times: 1,
            };
            take_as(refusal.number, task, &self.fresh, &refusal.datagrams)
        })
    }
}

/// What is at fault, the number, the node, and the messages.
type Case = (String, u32, u64, Vec<Vec<u8>>);

/// The messages that go out with chunk 0, of which the last is DATA.
struct Sent {
    addressing: Addressing,
    messages: Vec<Vec<u8>>,
}

impl Sent {
    /// The place of a node's hash.
    fn place(&self, node: u64) -> usize {
        let mut hashes = self.messages.iter().take_while(|one| is_integrity(one));
        let place = hashes.position(|hash| node_of(self.addressing, hash) == node);
        place.expect("it goes out with the chunk")
    }

    /// All but a node's hash.
    fn without(&self, node: u64) -> Vec<Vec<u8>> {
        let mut messages = self.messages.clone();
        messages.remove(self.place(node));
        messages
    }

    /// All, the one at a place with a wrong bit at its end.
    fn wrong(&self, place: usize) -> Vec<Vec<u8>> {
        let mut messages = self.messages.clone();
        *messages[place].last_mut().expect("some bytes") ^= 1;
        messages
    }

    /// What is refused of them by a fresh store of so many chunks.
    fn cases(&self, count: u32) -> Vec<Case> {
        let (root, peak) = (tree::root(count), tree::peaks(count)[0]);
        let (chunk, came) = (0, Vec::new());
        let needed = Offer { count, chunk, came }.missing(|node| node == root);
        let (hashes, data) = (needed.len(), self.messages.len() - 1);
        let [first, last] = [needed[0], needed[hashes - 1]];
        let missing = |which: &str| format!("the {which} of {hashes} hashes missing");
        let all = format!("all {hashes} hashes missing");
        let alone = vec![self.messages[data].clone()];
        let mut cases = vec![
            (missing("first"), MISSING, first, self.without(first)),
            (missing("last"), MISSING, last, self.without(last)),
            (all, MISSING, first, alone),
        ];
        if needed.contains(&peak) {
            let wrong = self.wrong(self.place(peak));
            cases.push(("a wrong peak".to_string(), WRONG, root, wrong));
        }
        let wrong = self.wrong(data);
        cases.push(("a wrong chunk".to_string(), WRONG, peak, wrong));
        cases
    }
}
