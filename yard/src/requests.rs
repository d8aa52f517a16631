//! Which chunks a van asks of whom.
//!
//! Each missing chunk is asked of one partner at a time, one that has told of it, chosen at random so that vans get
//! different chunks and have something for each other. A request that stays without its chunk is sent again, since it or
//! the chunk may be lost, and in the end cancelled there and open to others, since the partner may never have had it.

use crate::bits;
use crate::context::Context;
use crate::node::Node;
use crate::timing::{ASKS, ASK_AGAIN, WINDOW};
use ppspp::Message;
use std::collections::BTreeMap;

/// A request for a chunk.
#[derive(Clone, Copy, Debug)]
pub struct Ask {
    /// The channel on which it was sent.
    pub id: u32,
    /// When it was sent last.
    pub at: u64,
    /// How often it was sent.
    pub times: u32,
}

/// What is to be sent on a channel: the chunks to ask for, and those to cancel, as rows of bits.
struct Batch {
    request: Vec<u32>,
    cancel: Vec<u32>,
}

impl Node {
    /// Sends requests: those that wait too long once more, then new ones up to the window of each partner.
    pub(crate) fn ask_for_chunks(&mut self, context: &mut Context<'_>) {
        let words = self.words();
        let batch = || Batch {
            request: vec![0; words],
            cancel: vec![0; words],
        };
        let mut batches: BTreeMap<u32, Batch> = BTreeMap::new();
        for (id, chunk) in self.overdue(context) {
            bits::set(&mut batches.entry(id).or_insert_with(batch).request, chunk);
        }
        for (id, chunk) in self.given_up(context.now) {
            bits::set(&mut batches.entry(id).or_insert_with(batch).cancel, chunk);
        }
        for (id, chunk) in self.new_asks(context.now) {
            bits::set(&mut batches.entry(id).or_insert_with(batch).request, chunk);
        }
        for (id, batch) in batches {
            self.send_batch(context, id, &batch);
        }
    }

    /// The requests that are sent again.
    fn overdue(&mut self, context: &mut Context<'_>) -> Vec<(u32, u32)> {
        let late = |ask: &Ask| context.now >= ask.at + ASK_AGAIN && ask.times < ASKS;
        let mut again = Vec::new();
        for (&chunk, ask) in self.asks.iter_mut().filter(|(_, ask)| late(ask)) {
            ask.at = context.now;
            ask.times += 1;
            again.push((ask.id, chunk));
        }
        context.record.tally.requests_again += again.len() as u64;
        again
    }

    /// The requests that are given up.
    fn given_up(&mut self, now: u64) -> Vec<(u32, u32)> {
        let mut given_up = Vec::new();
        self.asks.retain(|&chunk, ask| {
            let keep = now < ask.at + ASK_AGAIN;
            if !keep {
                given_up.push((ask.id, chunk));
            }
            keep
        });
        given_up
    }

    /// New requests, for chunks that are asked of nobody.
    fn new_asks(&mut self, now: u64) -> Vec<(u32, u32)> {
        let mut taken = self.store.view().map.to_vec();
        self.asks.keys().for_each(|&c| bits::set(&mut taken, c));
        let mut new = Vec::new();
        for channel in self.store.channels().collect::<Vec<_>>() {
            let known = self.links.iter().any(|link| link.id == channel.id);
            if !known || channel.choked {
                continue;
            }
            let waiting = self.asks.values().filter(|ask| ask.id == channel.id);
            let room = WINDOW.saturating_sub(waiting.count());
            let mut offered: Vec<u32> =
                bits::ones(&bits::without(self.has(&channel), &taken)).collect();
            for _ in 0..room.min(offered.len()) {
                let chunk = offered.swap_remove(self.random.place(offered.len()));
                bits::set(&mut taken, chunk);
                new.push((channel.id, chunk));
            }
        }
        let ask = |id| Ask {
            id,
            at: now,
            times: 1,
        };
        self.asks.extend(new.iter().map(|&(id, c)| (c, ask(id))));
        new
    }

    /// Sends a channel's CANCELs and REQUESTs.
    fn send_batch(&mut self, context: &mut Context<'_>, id: u32, batch: &Batch) {
        let Some(link) = self.links.iter().find(|link| link.id == id) else {
            return;
        };
        let (address, Some(channel)) = (link.address, self.open_channel(link)) else {
            return;
        };
        let cancels = self.names(&batch.cancel).into_iter();
        let requests = self.names(&batch.request).into_iter();
        let messages: Vec<Message> = cancels
            .map(|(first, last)| Message::Cancel { first, last })
            .chain(requests.map(|(first, last)| Message::Request { first, last }))
            .collect();
        for datagram in self.compose(channel.peer, &messages) {
            context.send(address, datagram);
        }
    }
}
