//! Random datagrams that come to a store, right and wrong. Chunks and hashes are
//! those that a whole store of the pack writes.

use crate::calls::Call;
use crate::came::leave_least;
use crate::channels::Both;
use crate::garbling::spoiled;
use crate::handshakes::{opening, to_a_row};
use crate::packets::*;
use crate::packs::Pack;
use crate::random::Random;
use crate::takes::Take;
use second::channel::Phase;
use second::wire::Addressing;
use second::wire_cases;

/// Who sends.
pub struct Peer<'a> {
    /// The method of its store and of its messages.
    pub addressing: Addressing,
    pub pack: &'a Pack,
    /// A whole store of the pack, with this channel open.
    pub sender: Both,
    pub channel: u32,
}

impl Peer<'_> {
    /// What the whole store writes for a chunk: its messages, of which the last
    /// is DATA.
    pub fn written(&mut self, case: &str, chunk: u32, clock: u64) -> Vec<Vec<u8>> {
        let call = Call::Write {
            id: self.channel,
            chunk,
            clock,
        };
        let told = self.sender.call(case, &call);
        assert_eq!(told.number, 0, "{case}: {call}");
        messages(self.addressing, &self.sender.reply(&told))
    }

    /// A datagram for the store, whose state may be any.
    pub fn arriving(&mut self, case: &str, random: &mut Random, store: &Both) -> Vec<u8> {
        let sound = match random.below(32) {
            0..12 => {
                let chunk = self.chunk(case, random, store);
                datagram(destination(random, store), &chunk)
            }
            12..17 => {
                let most = random.one_of(&[1, 1, 2, 3, 12]);
                let count = 1 + random.below(most);
                let plain = (0..count).map(|_| self.plain(random)).collect::<Vec<_>>();
                datagram(destination(random, store), &plain)
            }
            17..23 => opening(random, store),
            23..28 => to_a_row(random, store),
            28 | 29 => datagram(destination(random, store), &[]),
            _ => self.any(random, store),
        };
        spoiled(random, sound)
    }

    /// What comes in a download: a chunk that is right, with all hashes or the
    /// least, to an open row; where none is open, a HANDSHAKE that may open one.
    pub fn downloaded(&mut self, case: &str, random: &mut Random, store: &Both) -> Vec<u8> {
        let open = open_rows(store);
        if open.is_empty() {
            return opening(random, store);
        }
        let number = self.next_number(random, store);
        let mut messages = self.written(case, number, clock(random));
        if random.one_in(2) {
            let trusts = |node| store.trusts(node);
            let count = self.pack.count();
            leave_least(self.addressing, &mut messages, count, number, trusts);
        }
        datagram(random.one_of(&open), &messages)
    }

    /// A chunk that the store refuses for a hash, to an open row; where none is
    /// open, a HANDSHAKE that may open one.
    pub fn lacking(&self, random: &mut Random, store: &Both) -> Vec<u8> {
        let open = open_rows(store);
        if open.is_empty() {
            return opening(random, store);
        }
        let take = Take::lacking(random, self.pack, |node| store.trusts(node));
        let messages = take.messages(self.addressing, clock(random));
        datagram(random.one_of(&open), &messages)
    }

    /// A chunk with its hashes, perhaps with other messages between them.
    fn chunk(&mut self, case: &str, random: &mut Random, store: &Both) -> Vec<Vec<u8>> {
        let number = self.chunk_number(random, store);
        let clock = clock(random);
        let mut messages = self.written(case, number, clock);
        messages.pop();
        self.choose_hashes(random, store, number, &mut messages);
        if random.one_in(3) {
            for _ in 0..1 + random.below(4) {
                let at = random.place(messages.len() + 1);
                messages.insert(at, self.plain(random));
            }
        }
        let data = self.data(random, number, clock);
        messages.push(data);
        messages
    }

    /// One that the store does not hold, in two of three cases.
    fn chunk_number(&self, random: &mut Random, store: &Both) -> u32 {
        let missing = self.missing(store);
        if missing.is_empty() || random.one_in(3) {
            random.below(self.pack.count())
        } else {
            random.one_of(&missing)
        }
    }

    /// The same in a download: the lowest one, one between two that are held, or
    /// any.
    fn next_number(&self, random: &mut Random, store: &Both) -> u32 {
        let count = self.pack.count();
        let missing = self.missing(store);
        if missing.is_empty() || random.one_in(3) {
            return random.below(count);
        }
        let joins = |&chunk: &u32| {
            let within = 0 < chunk && chunk + 1 < count;
            within && store.holds(chunk - 1) && store.holds(chunk + 1)
        };
        let joining: Vec<u32> = missing.iter().copied().filter(joins).collect();
        match random.below(4) {
            0 | 1 => missing[0],
            2 if !joining.is_empty() => random.one_of(&joining),
            _ => random.one_of(&missing),
        }
    }

    /// The chunks that the store does not hold.
    fn missing(&self, store: &Both) -> Vec<u32> {
        let chunks = 0..self.pack.count();
        chunks.filter(|&chunk| !store.holds(chunk)).collect()
    }

    /// Of the hashes of a chunk: all, those that the store needs, some of them,
    /// or one wrong; perhaps others beside them.
    fn choose_hashes(
        &self,
        random: &mut Random,
        store: &Both,
        chunk: u32,
        hashes: &mut Vec<Vec<u8>>,
    ) {
        if random.below(5) < 3 {
            let trusts = |node| store.trusts(node);
            leave_least(self.addressing, hashes, self.pack.count(), chunk, trusts);
        }
        match random.below(12) {
            0..3 => hashes.retain(|_| !random.one_in(3)),
            3 | 4 if !hashes.is_empty() => {
                let one = random.place(hashes.len());
                let hash = hashes[one].last_chunk_mut::<32>().expect("an INTEGRITY");
                hash[random.place(32)] ^= 1 << random.below(8);
            }
            5 => {
                for _ in 0..1 + random.below(3) {
                    let node = random.below(2 * self.pack.count() + 4).into();
                    hashes.push(integrity(self.addressing, node, &random.digest()));
                }
            }
            _ => {}
        }
        if random.one_in(4) {
            random.shuffle(hashes);
        }
    }

    /// The DATA of a chunk, right in seven of ten cases.
    fn data(&self, random: &mut Random, number: u32, time: u64) -> Vec<u8> {
        let count = self.pack.count();
        let mut chunk = self.pack.chunk(number).to_vec();
        let (mut first, mut last) = (number, number);
        match random.below(20) {
            0 | 1 => {
                let at = random.place(chunk.len());
                chunk[at] ^= 1 << random.below(8);
            }
            2 | 3 => {
                let size = chunk.len();
                let others = [0, size - 1, size + 1, 1, 1_023, 1_024, 1_025, 1_400];
                chunk.resize(random.one_of(&others), 0);
            }
            4 => {
                let another = random.below(count);
                first = random.one_of(&[another, count, count + 1, 512, u32::MAX]);
                last = first;
            }
            5 => last = random.below(count + 2),
            _ => {}
        }
        data(self.addressing, first, last, time, &chunk)
    }

    /// A message without a chunk, its range in most cases within the pack.
    fn plain(&self, random: &mut Random) -> Vec<u8> {
        let (first, last) = self.range(random);
        let ranged = |kind| ranged(self.addressing, kind, first, last);
        match random.below(9) {
            0 | 1 => ranged(HAVE),
            2 => ack(self.addressing, first, last, clock(random)),
            3 | 4 => ranged(REQUEST),
            5 => ranged(CANCEL),
            6 => vec![CHOKE],
            7 => vec![UNCHOKE],
            _ => {
                let node = random.below(2 * self.pack.count()).into();
                integrity(self.addressing, node, &random.digest())
            }
        }
    }

    /// A range, in most cases within the pack. Under bins the sum of its ends
    /// counts, and may also be a bin that is special, or past the pack.
    fn range(&self, random: &mut Random) -> (u32, u32) {
        let count = self.pack.count();
        let first = random.below(count);
        let last = match random.below(4) {
            0 => first,
            _ => first + random.below(count - first),
        };
        match random.below(32) {
            0 => (first, count),
            1 => (random.one_of(&[count, 511, 512]), u32::MAX),
            2 => (first, first.wrapping_sub(1)),
            3 => (0, count - 1),
            4..8 if self.addressing == Addressing::Bins => {
                let past = 2 * count - 1 + random.below(4);
                let bins = [EMPTY, EVERYTHING, past, 0x3fff_ffff, 0xffff_fffe];
                (random.one_of(&bins), 0)
            }
            _ => (first, last),
        }
    }

    /// One made for comparing readers, in some cases under the other method.
    fn any(&self, random: &mut Random, store: &Both) -> Vec<u8> {
        let addressing = match random.below(4) {
            0 => other(self.addressing),
            _ => self.addressing,
        };
        let made = wire_cases::datagrams(addressing, random.number().into(), 1).next();
        sent_to(destination(random, store), made.unwrap_or_default())
    }
}

/// A clock or a timestamp.
pub fn clock(random: &mut Random) -> u64 {
    match random.below(4) {
        0 => random.one_of(&[0, 1, u64::MAX]),
        _ => u64::from(random.number()) << random.below(33),
    }
}

/// The IDs of the open rows.
fn open_rows(store: &Both) -> Vec<u32> {
    let rows = store.state().rows.iter();
    let open = rows.filter(|row| row.phase == Phase::Open);
    open.map(|row| row.id).collect()
}

/// The ID of an open row in most cases, else of another row, of none, or 0.
pub fn destination(random: &mut Random, store: &Both) -> u32 {
    let rows = &store.state().rows;
    let open = open_rows(store);
    match random.below(24) {
        0 => 0,
        1 => random.number(),
        2 | 3 => random.one_of(rows).id,
        _ if !open.is_empty() => random.one_of(&open),
        _ => random.one_of(rows).id,
    }
}
