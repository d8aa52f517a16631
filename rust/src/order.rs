//! An order, how messages name chunks under it, and what is held of its pack.

use crate::{sizes, sys};

/// How messages name chunks: the order says it, and option 6 of a HANDSHAKE.
#[derive(Clone, Copy, Debug, Default, PartialEq, Eq, Hash)]
#[non_exhaustive]
pub enum Addressing {
    /// By one 32-bit bin, the number of the node over them; see [`Bin`](crate::Bin).
    Bins,
    /// By the first and the last of them, 32 bits each.
    #[default]
    Ranges,
}

impl Addressing {
    /// Its number, 0 or 2.
    pub const fn number(self) -> u32 {
        match self {
            Addressing::Bins => sys::PPSPP_BINS,
            Addressing::Ranges => sys::PPSPP_RANGES,
        }
    }

    /// The one of a number, if there is one.
    pub const fn of(number: u32) -> Option<Addressing> {
        match number {
            sys::PPSPP_BINS => Some(Addressing::Bins),
            sys::PPSPP_RANGES => Some(Addressing::Ranges),
            _ => None,
        }
    }
}

/// What a store works under: the pack's root hash, its length in bytes, 1 to 524,288, and how messages name chunks.
/// Later versions add fields, which [`new`](Order::new) and [`to_build`](Order::to_build) will set.
///
/// ```
/// use ppspp::{Addressing, Order};
/// let order = Order::new([7; 32], 4_500);
/// assert_eq!(order.known_addressing(), Some(Addressing::Ranges));
/// assert_eq!(order.addressing(Addressing::Bins).method, 0);
/// ```
#[derive(Clone, Copy, Debug, PartialEq, Eq, Hash)]
#[non_exhaustive]
pub struct Order {
    /// The root hash.
    pub root: [u8; sizes::ROOT_BYTES],
    /// The bytes of the pack.
    pub length: u32,
    /// The number of its [`Addressing`].
    pub method: u32,
}

impl Order {
    /// An order to start under, with ranges.
    pub fn new(root: [u8; sizes::ROOT_BYTES], length: u32) -> Order {
        Order {
            root,
            length,
            method: Addressing::default().number(),
        }
    }

    /// An order to build under, with ranges. Building finds the root: the one here is not looked at.
    pub fn to_build(length: u32) -> Order {
        Order::new([0; sizes::ROOT_BYTES], length)
    }

    /// The same with another addressing.
    #[must_use]
    pub fn addressing(self, addressing: Addressing) -> Order {
        self.method(addressing.number())
    }

    /// The same with the addressing of a number; one that no addressing has is answered with
    /// [`Refusal::Length`](crate::Refusal::Length).
    #[must_use]
    pub fn method(self, method: u32) -> Order {
        Order { method, ..self }
    }

    /// The addressing, unless its number is none's.
    pub fn known_addressing(&self) -> Option<Addressing> {
        Addressing::of(self.method)
    }

    /// The chunks of the pack.
    pub fn chunk_count(&self) -> u32 {
        sizes::chunk_count(self.length)
    }
}

/// As the library reads it.
impl From<Order> for sys::ppspp_order {
    fn from(order: Order) -> Self {
        sys::ppspp_order {
            root: order.root,
            length: order.length,
            addressing: order.method,
        }
    }
}

/// What is held of a pack.
#[derive(Clone, Copy, Debug, PartialEq, Eq, Hash)]
pub struct Held {
    /// How many chunks are held.
    pub count: u32,
    /// Whether that is all of them.
    pub whole: bool,
}
