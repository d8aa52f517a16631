//! How often the calls of random lists gave what.

use crate::calls::Call;
use crate::channels::Words;
use crate::naming::Named;
use crate::packets::ACK;
use second::wire::{self, Addressing, Message, Step, MIN_SIZE};
use std::fmt;

/// The names of the calls.
pub const NAMES: [&str; 8] = [
    "start", "build", "open", "take", "write", "ask", "begin", "add",
];

/// The place of a call in [`NAMES`].
fn place(call: &Call) -> usize {
    match call {
        Call::Start { .. } => 0,
        Call::Build { .. } => 1,
        Call::Open { .. } => 2,
        Call::Take { .. } => 3,
        Call::Write { .. } => 4,
        Call::Ask => 5,
        Call::Begin { .. } => 6,
        Call::Add { .. } => 7,
    }
}

/// The last chunk that bins can name.
const LAST: u32 = 0x7fff_ffff;

/// The type of a HANDSHAKE.
const HANDSHAKE: u8 = 0;

/// How often each number, by the call.
pub type Numbers = [[usize; 15]; 8];

/// What the calls gave.
#[derive(Default)]
pub struct Counts {
    /// In rooms of any size but for the state's.
    pub numbers: Numbers,
    /// Where the state room was too short.
    pub short: Numbers,
    /// Where the state was of another version, and where of a method that is
    /// none.
    pub versions: Numbers,
    pub methods: Numbers,
    /// How often a channel was opened, a datagram taken in, a chunk written, and
    /// how often it was asked, in a state of words that no call writes.
    pub uncanonical: [usize; 4],
    /// How often a channel was opened.
    pub opened: usize,
    /// How often a chunk was stored, and how often a held one came again.
    pub stored: usize,
    pub again: usize,
    /// How many ACKs named more than one chunk: of a stored one at their end, of a
    /// stored one between others, and of one that came again.
    pub joined: [usize; 3],
    /// How many named more than 32: of a stored one, and of one that came again.
    pub long: [usize; 2],
    /// The most chunks that an ACK named: of a stored one, and of one that came
    /// again.
    pub most: [u32; 2],
    /// What refused chunks named.
    pub named: Named,
    /// How many datagrams a store took in from its own reply room, how many of
    /// them brought a chunk, and how many the peer's store took in from there.
    pub own: usize,
    pub chunks: usize,
    pub by_peer: usize,
    /// How many messages were taken in under bins over no chunk, over everything,
    /// and over chunks of which some others are past the last.
    pub bins: [usize; 3],
}

/// Counts a call by its number.
pub fn count(numbers: &mut Numbers, call: &Call, number: u32) {
    numbers[place(call)][number as usize] += 1;
}

impl Counts {
    /// Counts a call that was made.
    pub fn add(&mut self, call: &Call, number: u32) {
        count(&mut self.numbers, call, number);
    }

    /// Counts a call by the words of the state in which it was made.
    pub fn add_state(&mut self, call: &Call, number: u32, words: Words) {
        match words {
            Words::OtherVersion => count(&mut self.versions, call, number),
            Words::OtherMethod => count(&mut self.methods, call, number),
            Words::Uncanonical if number == 0 => match call {
                Call::Open { .. } => self.uncanonical[0] += 1,
                Call::Take { .. } => self.uncanonical[1] += 1,
                Call::Write { .. } => self.uncanonical[2] += 1,
                Call::Ask => self.uncanonical[3] += 1,
                _ => {}
            },
            Words::Uncanonical | Words::Canonical => {}
        }
    }

    /// Counts a call by its number and its reply, after which other chunks are
    /// held or not, and which may have taken in a datagram from the store's own
    /// reply room.
    pub fn taken(&mut self, number: u32, reply: &[u8], more: bool, own: bool) {
        let kind = reply.get(MIN_SIZE);
        if own && number == 0 {
            self.own += 1;
            self.chunks += usize::from(kind == Some(&ACK));
        }
        match kind {
            Some(&HANDSHAKE) => self.opened += 1,
            Some(&ACK) if more => self.stored += 1,
            Some(&ACK) => self.again += 1,
            _ => {}
        }
    }

    /// Counts what the ACK of a chunk names, if there is one; `more` says whether
    /// the chunk was stored by it.
    pub fn add_ack(&mut self, addressing: Addressing, datagram: &[u8], reply: &[u8], more: bool) {
        let data = read(addressing, datagram).last();
        let ack = read(addressing, reply).next();
        let (Some(Message::Data { first: chunk, .. }), Some(Message::Ack { first, last, .. })) =
            (data, ack)
        else {
            return;
        };
        let again = usize::from(!more);
        let chunks = last - first + 1;
        if chunks > 1 {
            let between = usize::from(first < chunk && chunk < last);
            self.joined[if more { between } else { 2 }] += 1;
        }
        self.long[again] += usize::from(chunks > 32);
        self.most[again] = self.most[again].max(chunks);
    }

    /// Counts a datagram that was taken in under bins, for so many chunks.
    pub fn add_bins(&mut self, datagram: &[u8], chunks: u32) {
        for message in read(Addressing::Bins, datagram) {
            match message {
                Message::Empty { .. } => self.bins[0] += 1,
                Message::Have { last, .. }
                | Message::Request { last, .. }
                | Message::Cancel { last, .. }
                | Message::Ack { last, .. } => {
                    self.bins[1] += usize::from(last == LAST);
                    self.bins[2] += usize::from((chunks..LAST).contains(&last));
                }
                _ => {}
            }
        }
    }

    /// How often a number was given by any call.
    pub fn of(&self, number: usize) -> usize {
        self.numbers.iter().map(|call| call[number]).sum()
    }
}

/// The messages of a datagram.
fn read(addressing: Addressing, datagram: &[u8]) -> impl Iterator<Item = Message> + '_ {
    let mut at = MIN_SIZE;
    std::iter::from_fn(move || match wire::step(addressing, datagram, at) {
        Step::Read { message, next } => {
            at = next;
            Some(message)
        }
        _ => None,
    })
}

/// Panics where a call gave one of these numbers less often than so many times.
pub fn demand(what: &str, numbers: &Numbers, wanted: &[(&str, &[usize])], often: usize) {
    for (name, of_call) in wanted {
        let call = NAMES.iter().position(|known| known == name);
        let given = numbers[call.expect("the name of a call")];
        for &number in *of_call {
            let times = given[number];
            assert!(
                times >= often,
                "{what}, {name}: {number} is rare: {times} times"
            );
        }
    }
}

impl fmt::Display for Counts {
    fn fmt(&self, f: &mut fmt::Formatter) -> fmt::Result {
        table(f, "all", &self.numbers)?;
        table(f, "the state room too short", &self.short)?;
        table(f, "a state of another version", &self.versions)?;
        table(f, "a state of a method that is none", &self.methods)?;
        let [opened, taken, written, asked] = self.uncanonical;
        write!(f, "{opened} channels opened, {taken} datagrams taken in, ")?;
        write!(f, "{written} chunks written, {asked} times asked, ")?;
        writeln!(f, "in a state of words that no call writes")?;
        let (opened, stored, again) = (self.opened, self.stored, self.again);
        write!(f, "{opened} channels opened, {stored} chunks stored, ")?;
        writeln!(f, "{again} held ones taken again")?;
        let [end, between, repeated] = self.joined;
        write!(
            f,
            "ACKs of more than one chunk: {end} of a stored one at their end, "
        )?;
        writeln!(
            f,
            "{between} of one between others, {repeated} of a held one"
        )?;
        let ([stored, again], [most, most_again]) = (self.long, self.most);
        write!(
            f,
            "of more than 32: {stored} of a stored one, {again} of a held one; "
        )?;
        writeln!(f, "the most are {most} and {most_again}")?;
        writeln!(f, "{}", self.named)?;
        let (own, chunks, by_peer) = (self.own, self.chunks, self.by_peer);
        write!(f, "{own} datagrams taken in from the own reply room, ")?;
        writeln!(f, "{chunks} of them with a chunk; {by_peer} by the peer")?;
        let [empty, everything, past] = self.bins;
        write!(
            f,
            "bins taken in: {empty} empty, {everything} of everything, "
        )?;
        write!(f, "{past} others that run past the last chunk")
    }
}

/// A row for each call: how often it was made, and how often it gave each number.
fn table(f: &mut fmt::Formatter, what: &str, numbers: &Numbers) -> fmt::Result {
    let row = |f: &mut fmt::Formatter, name: &str, times: &[usize; 15]| {
        write!(f, "{name:6}{:>8}", times.iter().sum::<usize>())?;
        times.iter().try_for_each(|times| write!(f, "{times:>7}"))?;
        writeln!(f)
    };
    writeln!(f, "{what}: calls, and the numbers 0 to 14")?;
    for (name, times) in NAMES.iter().zip(numbers) {
        row(f, name, times)?;
    }
    let all = std::array::from_fn(|i| numbers.iter().map(|call| call[i]).sum());
    row(f, "all", &all)
}
