//! The calls of the loader's interface as jobs, through `ppspp` for the proved
//! code. Datagrams and rooms are made before a time begins.

use harness::bench::{timed, Job, Unit};
use harness::channels::words_of;
use harness::lists::sender;
use harness::packets::{datagram, fixed, handshake};
use harness::packs::Pack;
use harness::random::Random;
use harness::rooms::Rooms;
use ppspp::{calls, Order};
use second::channel::{self as channel, State};
use second::wire::Addressing;
use std::hint::black_box;
use std::time::Duration;

/// The channel on which all datagrams come and go.
pub const CHANNEL: u32 = 5;

/// The clock of all calls.
const CLOCK: u64 = 42;

/// What a job is called, how its time is told, and how often a run does it.
pub struct Task {
    pub name: String,
    pub unit: Unit,
    pub times: usize,
}

/// The chunks of a pack in a random order.
pub fn any_order(pack: &Pack) -> Vec<u32> {
    let mut order: Vec<u32> = (0..pack.count()).collect();
    Random::new(pack.count()).shuffle(&mut order);
    order
}

/// The datagrams that a whole store under a method writes for the chunks, to our
/// channel.
pub fn written(addressing: Addressing, pack: &Pack, order: &[u32]) -> Vec<Vec<u8>> {
    let mut peer = sender(addressing, &mut Random::new(0), pack);
    let clocks = 0..;
    let written = order.iter().zip(clocks).map(|(&chunk, clock)| {
        let messages = peer.written("written beforehand", chunk, clock);
        datagram(CHANNEL, &messages)
    });
    written.collect()
}

/// A store with the channel open.
#[derive(Clone)]
pub struct Ready {
    pub state: State,
    pub rooms: Rooms,
}

impl Ready {
    /// Just started or whole, in rooms just large enough. All have been written
    /// to, or the time would be that of the machine that finds the memory.
    pub fn new(addressing: Addressing, pack: &Pack, whole: bool) -> Self {
        let (length, root) = (pack.length(), pack.built.root());
        let method = addressing.number();
        let mut rooms = Rooms::least(length);
        let mut state = State::default();
        let lent = &mut rooms.lend_to_second();
        let begun = if whole {
            channel::build(&mut state, lent, length, method, &pack.content)
        } else {
            channel::start(&mut state, lent, root, length, method)
        };
        let opening = datagram(0, &[handshake(9, &fixed(addressing, root))]);
        let opened = channel::take(&mut state, lent, 0, CHANNEL, &opening);
        assert_eq!((begun.number, opened.number), (0, 0));
        Ready { state, rooms }
    }

    /// A copy for the proved code: the words of the state, and the rooms.
    fn in_words(&self) -> (Vec<u32>, Rooms) {
        (words_of(&self.state).to_vec(), self.rooms.clone())
    }
}

/// The time of calls that give the sum of their numbers: all are done.
fn done(calls: impl FnOnce() -> u32) -> Duration {
    answered(0, calls)
}

/// The same where the sum is this one.
fn answered(wanted: u32, calls: impl FnOnce() -> u32) -> Duration {
    let mut numbers = 0;
    let time = timed(|| numbers = calls());
    assert_eq!(numbers, wanted);
    time
}

/// The pack built, in the rooms of a store of it.
pub fn build<'a>(task: Task, ready: &'a Ready, pack: &'a Pack) -> Job<'a> {
    let (times, length) = (task.times, pack.length());
    let method = ready.state.addressing.number();
    let order = Order::to_build(length).method(method);
    let content = pack.content.as_slice();
    let proved = move || {
        let (mut state, mut rooms) = ready.in_words();
        let build = |_| calls::build(rooms.lend(&mut state), &order, black_box(content));
        done(|| (0..times).map(build).sum())
    };
    let second = move || {
        let mut store = ready.clone();
        let mut lent = store.rooms.lend_to_second();
        let build = |_| {
            let (state, content) = (&mut store.state, black_box(content));
            let built = channel::build(state, &mut lent, length, method, content);
            u32::from(built.number)
        };
        done(|| (0..times).map(build).sum())
    };
    Job::new(task.name, task.unit, proved, second)
}

/// The datagrams taken in one behind the other, by as many stores as the job is
/// done times.
pub fn take<'a>(task: Task, ready: &'a Ready, datagrams: &'a [Vec<u8>]) -> Job<'a> {
    take_as(0, task, ready, datagrams)
}

/// The same where each is answered with this number.
pub fn take_as<'a>(number: u32, task: Task, ready: &'a Ready, datagrams: &'a [Vec<u8>]) -> Job<'a> {
    let times = task.times;
    let wanted = number * (times * datagrams.len()) as u32;
    let proved = move || {
        let mut stores = vec![ready.in_words(); times];
        let take_all = |(state, rooms): &mut (Vec<u32>, Rooms)| {
            let take = |datagram: &Vec<u8>| {
                let (number, len, node) = calls::take(rooms.lend(state), CLOCK, 0, datagram);
                black_box((len, node));
                number
            };
            black_box(datagrams).iter().map(take).sum::<u32>()
        };
        answered(wanted, || stores.iter_mut().map(take_all).sum())
    };
    let second = move || {
        let mut stores = vec![ready.clone(); times];
        let take_all = |Ready { state, rooms }: &mut Ready| {
            let mut lent = rooms.lend_to_second();
            let take = |datagram: &Vec<u8>| {
                let taken = channel::take(state, &mut lent, CLOCK, 0, datagram);
                black_box((taken.length, taken.node));
                u32::from(taken.number)
            };
            black_box(datagrams).iter().map(take).sum::<u32>()
        };
        answered(wanted, || stores.iter_mut().map(take_all).sum())
    };
    Job::new(task.name, task.unit, proved, second)
}

/// Each of these chunks written.
pub fn write<'a>(task: Task, ready: &'a Ready, chunks: &'a [u32]) -> Job<'a> {
    let times = task.times;
    let proved = move || {
        let (mut state, mut rooms) = ready.in_words();
        let mut write = |&chunk: &u32| {
            let (number, len) = calls::write(rooms.lend(&mut state), CHANNEL, chunk, CLOCK);
            black_box(len);
            number
        };
        let mut write_all = |_| black_box(chunks).iter().map(&mut write).sum::<u32>();
        done(|| (0..times).map(&mut write_all).sum())
    };
    let second = move || {
        let Ready { state, mut rooms } = ready.clone();
        let mut lent = rooms.lend_to_second();
        let mut write = |&chunk: &u32| {
            let written = channel::write(&state, &mut lent, CHANNEL, chunk, CLOCK);
            black_box(written.length);
            u32::from(written.number)
        };
        let mut write_all = |_| black_box(chunks).iter().map(&mut write).sum::<u32>();
        done(|| (0..times).map(&mut write_all).sum())
    };
    Job::new(task.name, task.unit, proved, second)
}

/// Asked.
pub fn ask(task: Task, ready: &Ready) -> Job<'_> {
    let times = task.times;
    let proved = move || {
        let (state, rooms) = ready.in_words();
        let ask = |_| {
            let (number, held, whole) = calls::ask(black_box(&state), black_box(&rooms.map));
            black_box((held, whole));
            number
        };
        done(|| (0..times).map(ask).sum())
    };
    let second = move || {
        let Ready { state, rooms } = ready;
        let ask = |_| {
            let held = channel::ask(black_box(state), black_box(&rooms.map));
            black_box((held.count, held.whole));
            u32::from(held.number)
        };
        done(|| (0..times).map(ask).sum())
    };
    Job::new(task.name, task.unit, proved, second)
}
