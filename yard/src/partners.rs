//! The choice of partners.
//!
//! A van wants a few partners that have chunks it lacks. It knows all addresses of the yard, and calls one at random, the
//! server more often. One that does not answer, or was of no use, is avoided for a while, so that in time every partner
//! is tried. The server has 16 rows for all vans; who finds them full tries others and comes back.

use crate::bits;
use crate::context::Context;
use crate::link::Link;
use crate::node::{Node, SERVER};
use crate::random::Rate;
use crate::timing::{OWN_ROWS, PARTNERS, SECOND};

/// How often the server is chosen, if it may be.
const SERVER_FIRST: Rate = Rate::per_cent(25);

impl Node {
    /// Calls a partner, if another one is needed and there is one to be called.
    pub(crate) fn call_a_partner(&mut self, context: &mut Context<'_>) {
        let called = self.links.iter().filter(|link| link.called).count();
        let sources = self.links.iter().filter(|l| self.is_source(l, context.now));
        if called >= OWN_ROWS || sources.count() >= PARTNERS {
            return;
        }
        let Some(address) = self.choose(context.now) else {
            return;
        };
        let id = self.fresh_id();
        let tally = &mut context.record.tally;
        let Ok(handshake) = self.store.open(id).map(<[u8]>::to_vec) else {
            tally.calls_refused += 1;
            return;
        };
        tally.called += 1;
        tally.reopened += u64::from(self.called_before[address]);
        self.called_before[address] = true;
        let link = Link::new(id, address, true, context.now, self.words());
        self.links.push(link);
        context.send(address, handshake);
    }

    /// Whether a channel may bring a chunk: it is young, or its peer has told of one that is missing.
    fn is_source(&self, link: &Link, now: u64) -> bool {
        let Some(channel) = self.open_channel(link) else {
            return link.called;
        };
        let news = bits::without(self.has(&channel), self.store.view().map);
        bits::count(&news) > 0 || (link.called && now - link.since < SECOND)
    }

    /// An address to be called.
    fn choose(&mut self, now: u64) -> Option<usize> {
        let linked = |address| {
            let mut links = self.links.iter();
            links.any(|link| link.address == address && link.peer_is_open())
        };
        let free: Vec<usize> = (0..self.avoid.len())
            .filter(|&address| address != self.number && self.avoid[address] <= now)
            .filter(|&address| !linked(address))
            .collect();
        if free.contains(&SERVER) && self.random.happens(SERVER_FIRST) {
            return Some(SERVER);
        }
        self.random.pick(&free).copied()
    }
}
