//! The proved entry points against `second`'s, call by call, on random lists of
//! calls in any state and in any rooms, under either method. No expected value comes from the proved
//! code. A failure names the seed, which makes the same calls again, and the
//! call.

use harness::calls::{Call, Told};
use harness::channels::Both;
use harness::counts::{count, demand, Counts};
use harness::garbling::{garble, garble_map};
use harness::lists::{List, Mostly};
use harness::naming::Offer;
use harness::packs::{random_length, Pack};
use harness::random::Random;
use second::channel::Sizes;
use second::tree::chunk_count;
use second::wire::{Addressing, MIN_SIZE};

/// How many lists there are, how many calls a list has, and how often each
/// number must come.
const LISTS: u32 = 1_000;
const CALLS: u32 = 200;
const OFTEN: usize = 200;

/// How many nodes 9 must name in the end, and how many 10.
const NODES: usize = 400;

/// How often each number must come in a state without an order, and how often a
/// chunk must be written, and it be asked, in words that no call writes.
const IN_ODD_STATES: usize = 50;

/// How many calls there must be in the end.
const LEAST_CALLS: usize = 200_000;

/// How many rooms there are, and which of them is the reply room.
const ROOMS: usize = 7;
const REPLY: usize = 6;

/// The numbers of chunks of which there is a list in any case.
const COUNTS: [u32; 6] = [1, 32, 33, 257, 511, 512];

/// The numbers of chunks of which there are lists that are mostly downloads, and
/// how many lists these are.
const DOWNLOADED: [u32; 10] = [7, 33, 64, 65, 100, 128, 257, 384, 511, 512];
const DOWNLOADS: usize = 40;

/// The same of lists whose chunks are mostly refused for a hash.
const LACKED: [u32; 10] = [3, 7, 13, 31, 100, 255, 341, 383, 511, 512];
const LACKING: usize = 60;

/// What beginning and adding can answer.
const OF_COMPOSING: [(&str, &[usize]); 2] = [("begin", &[0, 11]), ("add", &[0, 1, 2, 3, 11, 12])];

/// What is answered where the state room is too short.
const OF_SHORT: [(&str, &[usize]); 6] = [
    ("start", &[11, 12]),
    ("build", &[11, 12]),
    ("open", &[11]),
    ("take", &[11]),
    ("write", &[11]),
    ("ask", &[11]),
];

/// What is answered in a state without an order, of another version or of no
/// method, the refused starts left out.
const WITHOUT_ORDER: [(&str, &[usize]); 6] = [
    ("start", &[0]),
    ("build", &[0]),
    ("open", &[12]),
    ("take", &[12]),
    ("write", &[12]),
    ("ask", &[12]),
];

#[test]
fn random_lists_under_ranges() {
    random_lists(Addressing::Ranges);
}

#[test]
fn random_lists_under_bins() {
    let counts = random_lists(Addressing::Bins);
    assert!(counts.bins.iter().all(|&times| times >= OFTEN));
}

fn random_lists(addressing: Addressing) -> Counts {
    let mut counts = Counts::default();
    for seed in 0..LISTS {
        let mut random = Random::new(seed);
        let length = random_length(&mut random);
        run(addressing, seed, random, length, Mostly::Any, &mut counts);
    }
    let counted = COUNTS.into_iter().map(|count| (count, Mostly::Any));
    let downloaded = DOWNLOADED.into_iter().map(|count| (count, Mostly::Right));
    let lacked = LACKED.into_iter().map(|count| (count, Mostly::Lacking));
    let counted = counted.chain(downloaded.cycle().take(DOWNLOADS));
    let counted = counted.chain(lacked.cycle().take(LACKING));
    for (seed, (count, mostly)) in (LISTS..).zip(counted) {
        let mut random = Random::new(seed);
        let length = 1_024 * (count - 1) + 1 + random.below(1_024);
        run(addressing, seed, random, length, mostly, &mut counts);
    }
    println!("{addressing:?}: {counts}");
    check(&counts);
    counts
}

/// All that a list may meet has been met often.
fn check(counts: &Counts) {
    assert!((0..15).map(|number| counts.of(number)).sum::<usize>() >= LEAST_CALLS);
    for number in 0..15 {
        let times = counts.of(number);
        assert!(times >= OFTEN, "{number} is rare: {times} times");
    }
    demand("all", &counts.numbers, &OF_COMPOSING, OFTEN);
    demand("too short", &counts.short, &OF_SHORT, OFTEN);
    demand("versions", &counts.versions, &WITHOUT_ORDER, IN_ODD_STATES);
    demand("methods", &counts.methods, &WITHOUT_ORDER, IN_ODD_STATES);
    counts.named.demand(OFTEN, NODES);
    let &Counts {
        uncanonical,
        opened,
        stored,
        again,
        joined,
        long,
        own,
        chunks,
        by_peer,
        ..
    } = counts;
    assert!(uncanonical.iter().all(|&times| times >= IN_ODD_STATES));
    assert!(opened.min(stored).min(again) >= OFTEN);
    assert!(joined.iter().chain(&long).all(|&times| times >= OFTEN));
    assert!(own.min(chunks).min(by_peer) >= OFTEN);
}

/// One list of calls on a store of a pack.
fn run(
    addressing: Addressing,
    seed: u32,
    mut random: Random,
    length: u32,
    mostly: Mostly,
    counts: &mut Counts,
) {
    let pack = Pack::new(&mut random, length);
    let mut list = List::new(addressing, random, &pack, mostly);
    for number in 0..CALLS {
        let case = format!("{addressing:?}, seed {seed}, length {length}, call {number}");
        if number == 0 && !list.random.one_in(8) {
            let start = list.start();
            counts.add(&start, list.call(&case, &start).number);
        }
        if list.random.one_in(40) {
            garble(&mut list.random, &mut list.store, length);
        }
        if mostly == Mostly::Right && list.random.one_in(4) {
            garble_map(&mut list.random, &mut list.store, pack.count());
        }
        let call = list.next_call(&case);
        if list.random.one_in(10) {
            small_room(&mut list, &case, &call, counts);
        }
        if call.starts() || list.random.one_in(20) {
            short_state(&mut list.random, &list.store, &case, &call, counts);
        }
        made(&mut list, &case, &call, counts);
    }
}

/// The call itself.
fn made(list: &mut List, case: &str, call: &Call, counts: &mut Counts) {
    let held = list.held();
    let own = is_in_reply_room(&list.store, call);
    let words = list.store.kind();
    let told = list.call(case, call);
    counts.add(call, told.number);
    counts.add_state(call, told.number, words);
    count_named(&list.store, call, &told, counts);
    if told.number == 0 {
        count_bins(&list.store, call, counts);
    }
    if !call.composes() {
        let (reply, more) = (list.store.reply(&told), held != list.held());
        counts.taken(told.number, &reply, more, own);
        count_ack(&list.store, call, &reply, more, counts);
    } else if let Some(take) = list.taken_by_peer(&told) {
        peer_takes(list, case, &take, counts);
    }
}

/// Counts what was taken in by a store under bins.
fn count_bins(store: &Both, call: &Call, counts: &mut Counts) {
    let state = store.state();
    if let (Addressing::Bins, Call::Take { datagram, .. }) = (state.addressing, call) {
        counts.add_bins(datagram, chunk_count(state.length));
    }
}

/// Counts the node that a refused chunk named, which left the store as it was.
fn count_named(store: &Both, call: &Call, told: &Told, counts: &mut Counts) {
    let state = store.state();
    if let (Some(_), Call::Take { datagram, .. }) = (told.node, call) {
        let offer = Offer::of(state.addressing, chunk_count(state.length), datagram);
        let offer = offer.expect("a chunk was refused");
        let trusts = |node| store.trusts(node);
        counts.named.add(&offer, trusts, told.answer());
    }
}

/// Counts the chunks that an ACK names.
fn count_ack(store: &Both, call: &Call, reply: &[u8], more: bool, counts: &mut Counts) {
    if let Call::Take { datagram, .. } = call {
        counts.add_ack(store.state().addressing, datagram, reply, more);
    }
}

/// A copy of the peer's store takes in what was composed for it.
fn peer_takes(list: &List, case: &str, take: &Call, counts: &mut Counts) {
    let case = format!("{case}, taken in by the peer");
    let number = list.peer.sender.clone().call(&case, take).number;
    counts.add(take, number);
    counts.by_peer += usize::from(number == 0);
}

/// Whether a call takes in a datagram that stands in the store's own reply room
/// and is more than its destination.
fn is_in_reply_room(store: &Both, call: &Call) -> bool {
    match call {
        Call::Take { datagram, .. } => {
            datagram.len() > MIN_SIZE && store.rooms().reply.starts_with(datagram)
        }
        _ => false,
    }
}

/// The same call with a room that is smaller, perhaps too small, which changes
/// nothing in the list.
fn small_room(list: &mut List, case: &str, call: &Call, counts: &mut Counts) {
    let least = Sizes::of(list.peer.pack.length());
    let room = if call.composes() && list.random.one_in(2) {
        REPLY
    } else {
        list.random.place(ROOMS)
    };
    let mut shorter = |least: usize| match list.random.below(3) {
        0 => list.random.place(least + 1),
        _ => least - 1,
    };
    let mut store = list.store.clone();
    store.change(|_, rooms| match room {
        0 => rooms.chunks.truncate(shorter(least.chunks)),
        1 => rooms.map.truncate(shorter(least.map)),
        2 => rooms.hashes.truncate(shorter(least.hashes)),
        3 => rooms.trusted.truncate(shorter(least.trusted)),
        4 => rooms.has.truncate(shorter(least.has)),
        5 => rooms.wants.truncate(shorter(least.wants)),
        _ => rooms.reply.truncate(shorter(least.reply)),
    });
    let case = format!("{case}, with room {room} smaller");
    if list.random.one_in(4) {
        short_state(&mut list.random, &store, &case, call, counts);
    }
    counts.add(call, store.call(&case, call).number);
}

/// The same call, if it is lent a state, with too few words of it.
fn short_state(random: &mut Random, store: &Both, case: &str, call: &Call, counts: &mut Counts) {
    if !call.composes() {
        let words = random.one_of(&[0, 1, 8, 9, 10, 11, 73, 74]);
        let number = store.call_short(case, call, words);
        count(&mut counts.short, call, number);
    }
}
