//! Who may have a row: HANDSHAKEs to channel 0.
//!
//! Anyone may send one, under any address, and each that is done takes a row. The loader has one means against that: the
//! ID that it passes. Under ID 0 a HANDSHAKE that would open a channel is refused with 14, and nothing is changed. So
//! every datagram is taken in, and the loader still decides who gets a row:
//!
//! - A caller that has a row already, by its address and channel, gets none; our answer is sent once more. The first one
//!   was lost, or the radio doubled the call.
//! - After a newcomer some time passes until the next one, so a flood finds few rows.
//! - A van keeps rows for its own calls, so no flood can keep it from calling.
//!
//! Rows that were taken for nobody are closed soon (see `rows`), and honest callers call again.

use crate::context::Context;
use crate::datagram::Datagram;
use crate::link::Link;
use crate::node::{Node, SERVER};
use crate::rows::handshake;
use crate::timing::{NEWCOMER, OWN_ROWS};
use ppspp::sizes::CHANNELS;
use ppspp::{destination, Message};

impl Node {
    /// The source channel of a datagram that wants to open a channel.
    pub(crate) fn caller(&self, datagram: &Datagram) -> Option<u32> {
        if destination(&datagram.bytes) != Some(0) {
            return None;
        }
        match self.store.messages(&datagram.bytes).next()? {
            Ok((_, Message::Handshake { source, .. })) => Some(source),
            _ => None,
        }
    }

    /// The ID that a caller's channel would get, 0 for none.
    pub(crate) fn admit(&mut self, now: u64, from: usize, source: u32) -> u32 {
        let answered = self.links.iter().filter(|link| !link.called).count();
        let room = self.number == SERVER || answered < CHANNELS as usize - OWN_ROWS;
        if now < self.next_newcomer || !room || self.link_of(from, source).is_some() {
            return 0;
        }
        self.fresh_id()
    }

    /// A caller got a row: our answer is sent.
    pub(crate) fn add_caller(
        &mut self,
        context: &mut Context<'_>,
        id: u32,
        from: usize,
        reply: Vec<u8>,
    ) {
        let mut link = Link::new(id, from, false, context.now, self.words());
        link.peer = self.store.channel(id).map_or(0, |channel| channel.peer);
        self.links.push(link);
        self.next_newcomer = context.now + NEWCOMER;
        context.record.tally.answered += 1;
        context.send(from, reply);
    }

    /// Sends our answer once more to a caller that has a row.
    pub(crate) fn answer_again(&mut self, context: &mut Context<'_>, from: usize, source: u32) {
        let Some(id) = self.link_of(from, source) else {
            return;
        };
        let root = self.order.root;
        for datagram in self.compose(source, &[handshake(id, &root)]) {
            context.record.tally.handshakes_again += 1;
            context.send(from, datagram);
        }
    }

    /// An ID that no row has. It is random, so that what comes late for a closed channel meets no other one.
    pub(crate) fn fresh_id(&mut self) -> u32 {
        loop {
            let id = self.random.number() as u32;
            if id != 0 && self.store.channel(id).is_none() {
                return id;
            }
        }
    }

    /// The ID of the row that a caller has already.
    fn link_of(&self, from: usize, source: u32) -> Option<u32> {
        let mut links = self.links.iter().filter(|link| link.address == from);
        let link = links
            .find(|link| self.open_channel(link).map(|channel| channel.peer) == Some(source))?;
        Some(link.id)
    }
}
