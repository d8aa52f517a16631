//! The state room of the loader's calls: too short, of another version or method,
//! and with words that no call writes. The numbers are those of the interface's
//! header, "the state's words"; each call goes to `second` too.

use harness::calls::Call;
use harness::channels::{Both, LENGTH, METHOD, ROWS, VERSION};
use harness::packets::*;
use harness::packs::Pack;
use harness::random::Random;
use harness::rooms::Rooms;
use ppspp::sizes::STATE_WORDS;
use second::wire::Addressing;

/// The length of a pack of seven chunks.
const SEVEN: u32 = 7_162;

/// The channel that is open.
const CHANNEL: u32 = 5;

/// A pack, and a whole store of it under a method with the channel open.
struct Whole {
    addressing: Addressing,
    pack: Pack,
    store: Both,
}

impl Whole {
    fn under(addressing: Addressing) -> Self {
        let mut random = Random::new(0);
        let mut whole = Whole {
            addressing,
            pack: Pack::new(&mut random, SEVEN),
            store: Both::unstarted(Rooms::random(&mut random, SEVEN)),
        };
        let opening = take(&datagram(0, &[whole.handshake()]));
        assert_eq!(whole.store.call("build", &whole.build()).number, 0);
        assert_eq!(whole.store.call("open", &opening).number, 0);
        whole
    }

    /// The peer's HANDSHAKE.
    fn handshake(&self) -> Vec<u8> {
        handshake(9, &fixed(self.addressing, self.pack.built.root()))
    }

    fn build(&self) -> Call {
        Call::Build {
            length: SEVEN,
            method: self.addressing.number(),
            content: self.pack.content.clone(),
        }
    }

    fn start(&self, length: u32) -> Call {
        Call::Start {
            root: *self.pack.built.root(),
            length,
            method: self.addressing.number(),
        }
    }

    /// Calls that are done by the store. They start no store.
    fn running(&self) -> [Call; 4] {
        let have = ranged(self.addressing, HAVE, 4, 5);
        let write = Call::Write {
            id: CHANNEL,
            chunk: 6,
            clock: 42,
        };
        let have = take(&datagram(CHANNEL, &[have]));
        [Call::Open { id: 6 }, have, write, Call::Ask]
    }

    /// The store has no order: the calls are refused with 12. What is left is
    /// there again after the change back, and a start or a building looks at no
    /// word of the old state.
    fn check_no_order(&self, changed: &Both, back: impl FnOnce(&mut [u32], &mut Rooms)) {
        for call in self.running() {
            let told = changed.clone().call("no order", &call);
            assert_eq!((told.number, told.len, told.held), (12, 0, [0, 0]));
        }
        let mut store = changed.clone();
        store.change(back);
        let told = store.call("the order is back", &Call::Ask);
        assert_eq!((told.number, told.held), (0, [7, 1]));
        for (call, held) in [(self.start(SEVEN), [0, 0]), (self.build(), [7, 1])] {
            let mut begun = changed.clone();
            assert_eq!(begun.call("begun anew", &call).number, 0);
            assert_eq!(begun.call("begun anew", &Call::Ask).held, held);
        }
    }
}

fn take(datagram: &[u8]) -> Call {
    Call::Take {
        clock: 0,
        id: CHANNEL,
        datagram: datagram.to_vec(),
    }
}

#[test]
fn each_length_under_the_least() {
    for whole in METHODS.map(Whole::under) {
        let method = whole.addressing.number();
        let other_content = Call::Build {
            length: SEVEN,
            method,
            content: [&whole.pack.content[..], &[0]].concat(),
        };
        let too_long = Call::Build {
            length: 524_289,
            method,
            content: vec![0; 524_289],
        };
        for words in 0..STATE_WORDS {
            let short = |call: &Call| whole.store.call_short("short", call, words);
            let running = whole.running();
            assert!(running.iter().all(|call| short(call) == 11), "{words}");
            assert_eq!(short(&whole.start(SEVEN)), 11, "{words}");
            assert_eq!(short(&whole.build()), 11, "{words}");
            for length in [0, 524_289, u32::MAX] {
                assert_eq!(short(&whole.start(length)), 12, "{words}, {length}");
            }
            assert_eq!(short(&other_content), 12, "{words}");
            assert_eq!(short(&too_long), 12, "{words}");
        }
    }
}

/// Also where another room is too small: 12 is of the order and the content.
#[test]
fn twelve_comes_before_eleven() {
    for whole in METHODS.map(Whole::under) {
        let (sound, bad) = (whole.start(SEVEN), whole.start(0));
        let mut store = whole.store.clone();
        store.change(|_, rooms| rooms.map.clear());
        assert_eq!(store.call_short("no map", &bad, 74), 12);
        assert_eq!(store.call_short("no map", &sound, 74), 11);
        assert_eq!(store.call("no map", &sound).number, 11);
        let mut of_no_method = store.clone();
        store.change(|state, _| state[VERSION] = 0);
        of_no_method.change(|state, _| state[METHOD] = 1);
        for mut store in [store, of_no_method] {
            let number = |call: Call| store.call("no map, no order", &call).number;
            assert_eq!(whole.running().map(number), [12; 4]);
        }
    }
}

/// The version is 2; that of the states before it was 1.
#[test]
fn a_state_of_another_version_has_no_order() {
    for whole in METHODS.map(Whole::under) {
        for version in [0, 1, 3, 75, 255, 256, 258, 1 << 17, 1 << 25, u32::MAX] {
            let mut changed = whole.store.clone();
            changed.change(|state, _| state[VERSION] = version);
            whole.check_no_order(&changed, |state, _| state[VERSION] = 2);
        }
    }
}

/// The words that calls wrote in version 1: 74 of them, without a method.
#[test]
fn a_state_of_version_one_has_no_order() {
    let whole = Whole::under(Addressing::Ranges);
    let mut changed = whole.store.clone();
    changed.change(|state, _| {
        state.copy_within(ROWS..STATE_WORDS, METHOD);
        state[VERSION] = 1;
    });
    whole.check_no_order(&changed, |state, _| {
        state.copy_within(METHOD..STATE_WORDS - 1, ROWS);
        state[METHOD] = 2;
        state[VERSION] = 2;
    });
}

/// The methods are 0 and 2.
#[test]
fn a_state_of_no_method_has_no_order() {
    for whole in METHODS.map(Whole::under) {
        let method = whole.addressing.number();
        for none in [1, 3, 4, 5, 6, 255, 256, 258, 1 << 17, 1 << 25, u32::MAX] {
            let mut changed = whole.store.clone();
            changed.change(|state, _| state[METHOD] = none);
            whole.check_no_order(&changed, |state, _| state[METHOD] = method);
        }
    }
}

/// A state is what its words say: with the other method's number, the store is
/// under that one.
#[test]
fn a_state_of_the_other_method() {
    for addressing in METHODS {
        let [whole, of_other] = [addressing, other(addressing)].map(Whole::under);
        let mut changed = whole.store.clone();
        let method = of_other.addressing.number();
        changed.change(|state, _| state[METHOD] = method);
        let number = |call: Call| changed.call("the other method", &call).number;
        assert_eq!(of_other.running().map(number), [0; 4]);
        let again = take(&datagram(CHANNEL, &[whole.handshake()]));
        assert_eq!(changed.call("its old options", &again).number, 4);
    }
}

/// A call writes the words of the rows that it changes, and no others: words that
/// no call writes stay where the row stays as it is.
#[test]
fn words_that_no_call_writes() {
    for mut whole in METHODS.map(Whole::under) {
        // A free row with IDs in it, and an open one whose choke mark is clear.
        let (free, mark) = ([3, 8, 9, 7], 2);
        whole.store.change(|state, _| {
            state[ROWS + 4..][..4].copy_from_slice(&free);
            state[ROWS + 3] = mark;
        });
        let left = |call: &Call| {
            let mut changed = whole.store.clone();
            assert_eq!(changed.call("odd words", call).number, 0, "{call}");
            let words = changed.words();
            (words[ROWS + 3] == mark, words[ROWS + 4..][..4] == free)
        };
        let [open, take_have, write, ask] = whole.running();
        for call in [take_have, write, ask] {
            assert_eq!(left(&call), (true, true), "{call}");
        }
        // The lowest free row is the one with the odd words.
        assert_eq!(left(&open), (true, false));
        let message = |message: Vec<u8>| take(&datagram(CHANNEL, &[message]));
        assert_eq!(left(&message(vec![CHOKE])), (false, true));
        assert_eq!(left(&message(vec![UNCHOKE])), (true, true));
        assert_eq!(left(&message(whole.handshake())), (true, true));
        let closing = handshake(0, &[0xff]);
        assert_eq!(left(&message(closing)), (false, true));
    }
}

/// A length that no order has is told by the calls on a running store, too.
#[test]
fn lengths_that_no_order_has() {
    for whole in METHODS.map(Whole::under) {
        for length in [0, 524_289, u32::MAX] {
            let mut changed = whole.store.clone();
            changed.change(|state, _| state[LENGTH] = length);
            let number = |call: Call| changed.call("another length", &call).number;
            assert_eq!(whole.running().map(number), [12; 4], "{length}");
        }
    }
}
