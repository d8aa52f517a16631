//! Route packs by RFC 7574 (PPSPP), yard profile: a safe wrapper over the proved library `libloader.a`.
//!
//! A [`Store`] is a pack under an [`Order`]: its root hash, its length, and how messages name chunks ([`Addressing`]).
//! It lives in eight rooms, which are allocated ([`OwnedRooms`]) or lent ([`Rooms`]). Datagrams come in with
//! [`take`](Store::take), and chunks go out with [`write`](Store::write); a chunk is stored only if it leads, with the
//! hashes that came, to the ordered root. Each call takes any numbers and any bytes, and is done or refused for a
//! [`Refusal`], which leaves every room as it was; a datagram that was not taken in is [`Refused`], which also has the
//! [`Node`] of the tree whose hash is missing or was missed. Sockets, clocks and the choice of chunks are the caller's.
//!
//! A van downloads a pack of two chunks from the server:
//!
//! ```
//! use ppspp::{Held, Order, Refusal, Refused, Store};
//!
//! // The server has the pack, and with it the order.
//! let content = [7; 1500];
//! let mut server = Store::build(Order::to_build(1500), &content)?;
//! let order: Order = server.order().expect("a built store has an order");
//!
//! // The van starts empty and opens channel 17. The server's channel for it is 5.
//! let mut van = Store::start(order)?;
//! let calling = van.open(17)?;
//! let answering = server.take(0, 5, calling)?;
//! assert_eq!(van.take(0, 0, answering)?, []);
//!
//! // The van asks for all; the server sees what is wanted and sends it.
//! let peer = van.channel(17).expect("it is open").peer;
//! let request = van.compose(peer)?.request(0, 1)?.finish();
//! server.take(0, 0, request)?;
//! let row = server.channel(5).expect("it is open").row;
//! for chunk in 0..order.chunk_count() {
//!     assert!(server.peer_wants(row, chunk));
//!     let datagram = server.write(5, chunk, 1_000)?;
//!     let ack = van.take(1_250, 0, datagram)?;
//!     server.take(1_500, 0, ack)?;
//!     assert!(server.peer_has(row, chunk));
//! }
//! assert_eq!(van.ask()?, Held { count: 2, whole: true });
//! assert_eq!(van.bytes(), content);
//!
//! // Anyone can transmit. What is refused changes nothing.
//! assert_eq!(van.take(2_000, 0, b"anything"), Err(Refusal::Malformed.into()));
//! # Ok::<(), Refused>(())
//! ```
//!
//! [`calls`] has the same calls with the library's own numbers, and [`sys`] the C interface itself.
//!
//! Without the feature `alloc`, which is on by default, the crate needs neither the standard library nor an allocator:
//! lend static rooms with [`Store::start_in`].

#![no_std]
#![deny(missing_docs)]
#![deny(unsafe_code)]

#[cfg(feature = "alloc")]
extern crate alloc;

#[allow(unsafe_code)]
pub mod calls;
mod composer;
mod display;
mod look;
mod message;
mod naming;
mod node;
mod numbers;
mod order;
#[cfg(feature = "alloc")]
mod owned;
mod reading;
mod refusal;
mod refused;
mod rooms;
pub mod sizes;
mod store;
pub mod sys;
mod table;

pub use composer::Composer;
pub use display::InWords;
pub use message::{EmptyKind, Message, Options};
pub use naming::Bin;
pub use node::Node;
pub use order::{Addressing, Held, Order};
#[cfg(feature = "alloc")]
pub use owned::OwnedRooms;
pub use reading::{destination, messages, Malformed, Messages};
pub use refusal::Refusal;
pub use refused::Refused;
pub use rooms::{Lend, Rooms, View};
pub use store::Store;
pub use table::{Channel, Phase};

/// The README's lines in Rust compile.
#[cfg(doctest)]
#[doc = include_str!("../../README.md")]
struct Readme;
