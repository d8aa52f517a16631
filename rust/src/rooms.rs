//! The rooms that a store lives in.

/// The eight rooms of a store, lent for writing. A room may have any length: one that is too small for the order is
/// answered with [`Refusal::Room`](crate::Refusal::Room). The sizes are in [`sizes`](crate::sizes).
///
/// ```
/// use ppspp::sizes::{fixed, REPLY_BYTES, STATE_WORDS};
/// use ppspp::{Order, Rooms, Store};
///
/// const LENGTH: u32 = 4_500;
/// const N: u32 = fixed::chunk_count(LENGTH);
/// let rooms = Rooms {
///     state: &mut [0; STATE_WORDS],
///     chunks: &mut [0; LENGTH as usize],
///     map: &mut [0; fixed::map_words(N)],
///     hashes: &mut [0; fixed::hash_words(N)],
///     trusted: &mut [0; fixed::trusted_words(N)],
///     has: &mut [0; fixed::peer_words(N)],
///     wants: &mut [0; fixed::peer_words(N)],
///     reply: &mut [0; REPLY_BYTES],
/// };
/// let store = Store::start_in(rooms, Order::new([7; 32], LENGTH))?;
/// assert_eq!(store.missing().count(), 5);
/// # Ok::<(), ppspp::Refusal>(())
/// ```
#[derive(Debug, PartialEq, Eq)]
pub struct Rooms<'a> {
    /// The order and the channel table.
    pub state: &'a mut [u32],
    /// The bytes of the pack.
    pub chunks: &'a mut [u8],
    /// A bit for each chunk held.
    pub map: &'a mut [u32],
    /// The hashes of the tree's nodes, by node number: eight words each, the first byte of each four in the high bits.
    pub hashes: &'a mut [u32],
    /// A bit for each trusted node, by node number.
    pub trusted: &'a mut [u32],
    /// What peers have, a row for each channel.
    pub has: &'a mut [u32],
    /// What peers want, a row for each channel.
    pub wants: &'a mut [u32],
    /// The reply of the last call.
    pub reply: &'a mut [u8],
}

/// The eight rooms of a store, lent for reading.
#[derive(Clone, Copy, Debug, PartialEq, Eq)]
pub struct View<'a> {
    /// The order and the channel table.
    pub state: &'a [u32],
    /// The bytes of the pack.
    pub chunks: &'a [u8],
    /// A bit for each chunk held.
    pub map: &'a [u32],
    /// The hashes of the tree's nodes, by node number: eight words each, the first byte of each four in the high bits.
    pub hashes: &'a [u32],
    /// A bit for each trusted node, by node number.
    pub trusted: &'a [u32],
    /// What peers have, a row for each channel.
    pub has: &'a [u32],
    /// What peers want, a row for each channel.
    pub wants: &'a [u32],
    /// The reply of the last call.
    pub reply: &'a [u8],
}

/// What has rooms for a store, and lends the same ones each time.
///
/// With an implementation that lends other rooms each time, a store gives wrong replies or panics; it is never unsafe.
pub trait Lend {
    /// Lends the rooms for writing.
    fn lend(&mut self) -> Rooms<'_>;

    /// Lends the rooms for reading.
    fn view(&self) -> View<'_>;
}

impl Lend for Rooms<'_> {
    fn lend(&mut self) -> Rooms<'_> {
        Rooms {
            state: self.state,
            chunks: self.chunks,
            map: self.map,
            hashes: self.hashes,
            trusted: self.trusted,
            has: self.has,
            wants: self.wants,
            reply: self.reply,
        }
    }

    fn view(&self) -> View<'_> {
        View {
            state: self.state,
            chunks: self.chunks,
            map: self.map,
            hashes: self.hashes,
            trusted: self.trusted,
            has: self.has,
            wants: self.wants,
            reply: self.reply,
        }
    }
}

/// Rooms that are borrowed are given back when the store is dropped.
impl<R: Lend + ?Sized> Lend for &mut R {
    fn lend(&mut self) -> Rooms<'_> {
        (**self).lend()
    }

    fn view(&self) -> View<'_> {
        (**self).view()
    }
}
