//! Freeing rows. No row stays in use without use, so no node gets stuck.
//!
//! 01 has no call that frees a row, but two datagrams that do, and a loader may take in datagrams that it composed
//! itself:
//!
//! - An open row is freed by a closing HANDSHAKE to its ID.
//! - A calling row is refused that with 3. It is opened first, by an answering HANDSHAKE with any source, and then
//!   closed. This changes nothing but the row.
//!
//! So every row leaves every phase. A calling one is answered, or freed when its HANDSHAKE was sent `CALLS` times. An
//! open one serves, or is closed: if nothing ever came on it, if it fell silent, if it is choked, or if it has been of
//! no use. The peer is told by a closing HANDSHAKE, and again if it still sends on the channel; if it hears neither, the
//! same rules free its row. IDs are never used again but by chance, so what still comes for a freed row is refused with 5.
//!
//! Whoever closes channels in the name of others costs them the time to notice it and to call again, and no chunk.

use crate::context::Context;
use crate::datagram::Origin;
use crate::link::{Former, Link};
use crate::node::Node;
use crate::timing::{AVOID, CALLS, CALL_AGAIN, CHOKED, FORMER, IDLE, PROBATION, SILENT, TELLINGS};
use ppspp::{destination, Message, Options};

impl Node {
    /// Calls again, gives up calls, and closes what is of no use.
    pub(crate) fn look_after_rows(&mut self, context: &mut Context<'_>) {
        let whole = self.is_whole();
        // From the last to the first, since a link may be removed.
        for at in (0..self.links.len()).rev() {
            let link = &self.links[at];
            match self.open_channel(link) {
                Some(channel) if is_useless(link, context.now, whole) => {
                    self.close(context, at, channel.peer);
                }
                Some(_) => {}
                None if context.now < link.call_again => {}
                None if link.calls < CALLS => self.call_again(context, at),
                None => self.give_up(context, at),
            }
        }
    }

    /// Sends our HANDSHAKE once more. The callee knows it by our address and channel.
    fn call_again(&mut self, context: &mut Context<'_>, at: usize) {
        let root = self.order.root;
        let link = &mut self.links[at];
        link.calls += 1;
        link.call_again = context.now + CALL_AGAIN;
        let (id, address) = (link.id, link.address);
        for datagram in self.compose(0, &[handshake(id, &root)]) {
            context.record.tally.handshakes_again += 1;
            context.send(address, datagram);
        }
    }

    /// Frees the row of a call that nobody answers.
    fn give_up(&mut self, context: &mut Context<'_>, at: usize) {
        let root = self.order.root;
        let id = self.links[at].id;
        self.take_own(context, id, handshake(id, &root));
        self.take_own(context, id, Message::CLOSING);
        context.record.tally.given_up += 1;
        self.leave(context.now, at);
    }

    /// Closes an open channel, and tells the peer.
    fn close(&mut self, context: &mut Context<'_>, at: usize, peer: u32) {
        let (id, address) = (self.links[at].id, self.links[at].address);
        for datagram in self.compose(peer, &[Message::CLOSING]) {
            context.send(address, datagram);
        }
        self.take_own(context, id, Message::CLOSING);
        context.record.tally.closed += 1;
        self.leave(context.now, at);
    }

    /// Tells a peer that the channel on which it sends is closed. A HANDSHAKE gets no such answer, else two nodes
    /// could tell each other for ever; and it is told a few times only, since it may be the attacker who sends.
    pub(crate) fn tell_closed(&mut self, context: &mut Context<'_>, bytes: &[u8]) {
        if let Some(Ok((_, Message::Handshake { .. }))) = self.store.messages(bytes).next() {
            return;
        }
        let id = destination(bytes);
        let due = |former: &&mut Former| {
            Some(former.id) == id && former.peer != 0 && former.told < TELLINGS
        };
        let Some(former) = self.former.iter_mut().find(due) else {
            return;
        };
        former.told += 1;
        let Former { peer, address, .. } = *former;
        for datagram in self.compose(peer, &[Message::CLOSING]) {
            context.send(address, datagram);
        }
    }

    /// Takes in a message to our own channel.
    fn take_own(&mut self, context: &mut Context<'_>, id: u32, message: Message<'_>) {
        for datagram in self.compose(id, &[message]) {
            let answer = self.take(context, 0, &datagram, Origin::Loader);
            assert_eq!(answer.reply, Ok(Vec::new()), "01 takes it without a reply");
        }
    }

    /// Removes a link after a failure, and avoids its address for a while.
    fn leave(&mut self, now: u64, at: usize) {
        let address = self.links[at].address;
        self.avoid[address] = now + self.random.between(AVOID.0, AVOID.1);
        self.forget_link(at);
    }

    /// Removes a link whose row is free; what was asked on it may be asked of others.
    pub(crate) fn forget_link(&mut self, at: usize) {
        let link = self.links.remove(at);
        self.former.push_back(link.former());
        if self.former.len() > FORMER {
            self.former.pop_front();
        }
        self.asks.retain(|_, ask| ask.id != link.id);
    }
}

/// A HANDSHAKE with the profile's options.
pub(crate) fn handshake(source: u32, root: &[u8]) -> Message<'_> {
    let options = Options::Fixed { root };
    Message::Handshake { source, options }
}

/// Whether an open channel is to be closed.
///
/// A partner that was called must bring chunks, as long as some are missing; one that called may also ask for them.
fn is_useless(link: &Link, now: u64, whole: bool) -> bool {
    let since = |time: Option<u64>| now - time.unwrap_or(link.since).max(link.since);
    let idle = match link.called && !whole {
        true => since(link.brought),
        false => since(link.brought).min(since(link.asked)),
    };
    let never_heard = link.heard.is_none() && since(None) >= PROBATION;
    let choked = link.choked.is_some_and(|time| now - time >= CHOKED);
    never_heard || since(link.heard) >= SILENT || idle >= IDLE || choked
}
