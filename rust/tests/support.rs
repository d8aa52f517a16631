//! Packs, and stores that share a channel.

use ppspp::{Addressing, Node, Order, Store};
use second::by_hand;

/// The van's channel, and the server's for it.
pub const VAN: u32 = 17;
pub const SERVER: u32 = 5;

/// The two ways of naming chunks.
pub const BINS: Addressing = Addressing::Bins;
pub const RANGES: Addressing = Addressing::Ranges;

/// The length of a pack of seven chunks, the last of 1,018 bytes.
pub const SEVEN: u32 = 7_162;

/// A pack of a length, in which no two chunks that follow each other are the same.
pub fn content(length: u32) -> Vec<u8> {
    (0..=250).cycle().take(length as usize).collect()
}

/// The bytes that hexadecimal digits name, in groups, `xx*N` for N times xx.
pub fn bytes(text: &str) -> Vec<u8> {
    let line = format!("0 {text} # by hand");
    by_hand::parse(&line).expect(text).remove(0).datagram
}

/// The node of a number.
pub fn node(number: u64) -> Node {
    Node::of(number).expect("a node's number")
}

/// An order that no content is known for, under ranges.
pub fn any_order(length: u32) -> Order {
    Order::new([0x2a; 32], length)
}

/// A whole store of a pack of a length.
pub fn built(addressing: Addressing, length: u32) -> Store {
    let order = Order::to_build(length).addressing(addressing);
    Store::build(order, &content(length)).expect("a pack's length")
}

/// A server that has a pack, and an empty van under its order. A channel is open between them.
pub struct Pair {
    pub server: Store,
    pub van: Store,
    pub order: Order,
}

impl Pair {
    /// A pair for the pack of a length, under ranges.
    pub fn new(length: u32) -> Pair {
        Pair::under(RANGES, length)
    }

    /// A pair for the pack of a length.
    pub fn under(addressing: Addressing, length: u32) -> Pair {
        let mut server = built(addressing, length);
        let order = server.order().expect("it was built");
        let mut van = Store::start(order).expect("the same length");
        let calling = van.open(VAN).expect("a free row");
        let answering = server
            .take(0, SERVER, calling)
            .expect("the order's HANDSHAKE");
        assert_eq!(van.take(0, 0, answering), Ok(&[][..]));
        Pair { server, van, order }
    }

    /// The datagram of a chunk, as the server writes it for the van at a clock.
    pub fn written(&mut self, chunk: u32, clock: u64) -> Vec<u8> {
        let datagram = self.server.write(SERVER, chunk, clock);
        datagram.expect("a chunk of the pack").to_vec()
    }
}
