//! A store and the calls on it.

use crate::calls;
use crate::composer::Composer;
use crate::order::{Held, Order};
#[cfg(feature = "alloc")]
use crate::owned::OwnedRooms;
use crate::refusal::Refusal;
use crate::refused::Refused;
use crate::rooms::{Lend, View};
use crate::sizes;
use crate::table::{Channel, Phase};

/// A pack under an order, in rooms that it owns or that are lent to it. All that a store is stands in its rooms.
///
/// Each call takes any numbers and any bytes. A refused one leaves every room as it was.
#[derive(Clone, Debug, PartialEq, Eq)]
pub struct Store<#[cfg(feature = "alloc")] R = OwnedRooms, #[cfg(not(feature = "alloc"))] R> {
    rooms: R,
}

#[cfg(feature = "alloc")]
impl Store {
    /// Starts an empty store under an order, in rooms that are allocated for its length.
    ///
    /// # Panics
    ///
    /// If the linked library has another layout of the state than this crate.
    pub fn start(order: Order) -> Result<Store, Refusal> {
        Store::start_in(OwnedRooms::for_length(order.length), order)
    }

    /// Builds a whole store from its content, which must have the order's length, in rooms that are allocated for it.
    /// The order's root is not looked at: [`order`](Store::order) has the one found.
    ///
    /// # Panics
    ///
    /// If the linked library has another layout of the state than this crate.
    pub fn build(order: Order, content: &[u8]) -> Result<Store, Refusal> {
        Store::build_in(OwnedRooms::for_length(order.length), order, content)
    }
}

impl<R: Lend> Store<R> {
    /// Starts an empty store under an order. Whatever stood in the rooms before counts for nothing.
    ///
    /// # Panics
    ///
    /// If the linked library has another layout of the state than this crate.
    pub fn start_in(rooms: R, order: Order) -> Result<Store<R>, Refusal> {
        let mut store = Store::resume(rooms);
        store.restart(order)?;
        Ok(store)
    }

    /// Builds a whole store from its content, which must have the order's length. The order's root is not looked at.
    ///
    /// # Panics
    ///
    /// If the linked library has another layout of the state than this crate.
    pub fn build_in(rooms: R, order: Order, content: &[u8]) -> Result<Store<R>, Refusal> {
        let mut store = Store::resume(rooms);
        store.rebuild(order, content)?;
        Ok(store)
    }

    /// The store that stands in rooms as an earlier one left them.
    ///
    /// Rooms that were never started or built have no order, if the first word of the state room is not the layout's
    /// version: rooms of zeros will do. Until they are, calls on the store are answered with [`Refusal::Length`], or
    /// with [`Refusal::Room`] where the state room has under 75 words. Composing needs no order: without one it is
    /// under ranges.
    ///
    /// # Panics
    ///
    /// If the linked library has another layout of the state than this crate.
    pub fn resume(rooms: R) -> Store<R> {
        sizes::demand_match();
        Store { rooms }
    }

    /// Starts the store anew under an order, in the rooms that it has. A refusal leaves the store that was there.
    pub fn restart(&mut self, order: Order) -> Result<(), Refusal> {
        Refusal::check(calls::start(self.rooms.lend(), &order))
    }

    /// Builds the store anew of a content, in the rooms that it has. A refusal leaves the store that was there.
    pub fn rebuild(&mut self, order: Order, content: &[u8]) -> Result<(), Refusal> {
        Refusal::check(calls::build(self.rooms.lend(), &order, content))
    }

    /// Opens a channel under an ID that is not 0 and not in use; the reply is our HANDSHAKE.
    ///
    /// It calls until its peer answers; [`close`](Store::close) frees the row of one that is never answered.
    pub fn open(&mut self, id: u32) -> Result<&[u8], Refusal> {
        let (number, len) = calls::open(self.rooms.lend(), id);
        Refusal::check(number)?;
        Ok(self.reply(len))
    }

    /// Takes in a datagram. Gives the reply: an ACK for a chunk that is stored, or was held and is the same, our
    /// HANDSHAKE for one that opens a channel, else no byte.
    ///
    /// The ACK names the biggest complete interval that covers the chunk, once it is stored: under ranges the longest
    /// run of held chunks around it, under bins the largest whole subtree inside the pack all of whose chunks are held.
    ///
    /// The clock is any number, in microseconds by the protocol; it only goes into the ACK's delay. The ID is for a
    /// channel that the datagram may open, and is looked at only then. If it had no row before,
    /// [`channel`](Store::channel) tells afterwards whether it was used. IDs that are hard to guess keep strangers from
    /// naming them.
    ///
    /// Of a chunk that its hashes do not prove, [`Refused`] has the node whose hash is missing or was missed.
    pub fn take(&mut self, clock: u64, id: u32, datagram: &[u8]) -> Result<&[u8], Refused> {
        let (number, len, node) = calls::take(self.rooms.lend(), clock, id, datagram);
        Refused::check(number, node)?;
        Ok(self.reply(len))
    }

    /// Writes the datagram of one chunk, with all hashes that a new peer needs, for the channel open under an ID; the
    /// clock is its timestamp.
    pub fn write(&mut self, id: u32, chunk: u32, clock: u64) -> Result<&[u8], Refusal> {
        let (number, len) = calls::write(self.rooms.lend(), id, chunk, clock);
        Refusal::check(number)?;
        Ok(self.reply(len))
    }

    /// Frees the row of an ID of ours, open or calling; an ID without a row is [`Refusal::NoChannel`]. The peer is not
    /// told: if it is to know, send it a closing HANDSHAKE first. The reply room stays as it was.
    ///
    /// ```
    /// use ppspp::{Order, Refusal, Store};
    /// let mut van = Store::start(Order::new([7; 32], 4_500))?;
    /// van.open(17)?; // and no peer ever answers
    /// assert_eq!(van.close(17), Ok(()));
    /// assert_eq!(van.channel(17), None);
    /// assert_eq!(van.close(17), Err(Refusal::NoChannel));
    /// # Ok::<(), Refusal>(())
    /// ```
    pub fn close(&mut self, id: u32) -> Result<(), Refusal> {
        let mut room = [0; sizes::REPLY_BYTES];
        let addressing = self.addressing();
        // A keepalive changes nothing, and is refused where there is no row.
        let keepalive = Composer::begin(&mut room, addressing, id)?;
        self.take_own(keepalive.finish())?;
        // A calling row is opened first, by a HANDSHAKE as its peer would send it.
        let calling = |channel: &Channel| channel.phase == Phase::Calling;
        if let (Some(_), Some(order)) = (self.channel(id).filter(calling), self.order()) {
            let opening = Composer::begin(&mut room, addressing, id)?;
            let opening = opening.handshake(1, &order.root)?;
            self.take_own(opening.finish())?;
        }
        let closing = Composer::begin(&mut room, addressing, id)?.close()?;
        self.take_own(closing.finish())
    }

    /// How many chunks are held, and whether that is all of them.
    pub fn ask(&self) -> Result<Held, Refusal> {
        let View { state, map, .. } = self.rooms.view();
        let (number, count, whole) = calls::ask(state, map);
        Refusal::check(number)?;
        Ok(Held {
            count,
            whole: whole == 1,
        })
    }

    /// Begins a datagram in the reply room, under the store's own addressing; its destination is the peer's channel.
    pub fn compose(&mut self, destination: u32) -> Result<Composer<'_>, Refusal> {
        let addressing = self.addressing();
        Composer::begin(self.rooms.lend().reply, addressing, destination)
    }

    /// The rooms, for reading.
    pub fn view(&self) -> View<'_> {
        self.rooms.view()
    }

    /// Gives the rooms back, with the store in them.
    pub fn into_rooms(self) -> R {
        self.rooms
    }

    /// Takes in a datagram of ours. It has no chunk, so that a refusal has no node.
    fn take_own(&mut self, datagram: &[u8]) -> Result<(), Refusal> {
        let taken = self.take(0, 0, datagram);
        taken.map(|_| ()).map_err(Refused::refusal)
    }

    /// The reply of a length, in its room.
    fn reply(&self, len: usize) -> &[u8] {
        &self.rooms.view().reply[..len]
    }
}
