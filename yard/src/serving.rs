//! Which chunk a node sends next.
//!
//! Partners take turns. What a partner wants stands in the store, set by its REQUESTs and cleared by its ACKs, HAVEs
//! and CANCELs. A chunk that is wanted still some time after it was sent is sent again. An ACK may name more chunks than
//! the one that it answers, so it also settles those whose own ACK was lost.

use crate::bits;
use crate::context::Context;
use crate::link::Link;
use crate::node::{Node, SERVER};
use crate::timing::SEND_AGAIN;

impl Node {
    /// Sends one chunk, if one is wanted. Whether it did.
    pub fn serve(&mut self, context: &mut Context<'_>) -> bool {
        let count = self.links.len();
        for step in 1..=count {
            let at = (self.turn + step) % count;
            let Some(chunk) = self.next_chunk(&self.links[at], context.now) else {
                continue;
            };
            self.turn = at;
            self.send_chunk(context, at, chunk);
            return true;
        }
        false
    }

    /// The lowest chunk that a partner wants, that is held, and that was not sent just now.
    fn next_chunk(&self, link: &Link, now: u64) -> Option<u32> {
        let channel = self.open_channel(link)?;
        let wanted = bits::both(self.wants(&channel), self.store.view().map);
        let due = |chunk| match link.sent.get(&chunk) {
            Some(&sent) => now >= sent + SEND_AGAIN,
            None => true,
        };
        let mut due_chunks = bits::ones(&wanted).filter(|&chunk| due(chunk));
        due_chunks.next()
    }

    /// Writes a chunk and sends it.
    fn send_chunk(&mut self, context: &mut Context<'_>, at: usize, chunk: u32) {
        let link = &mut self.links[at];
        let written = self.store.write(link.id, chunk, context.now);
        let datagram = written
            .expect("the chunk is held and the channel open")
            .to_vec();
        match self.number {
            SERVER => context.record.tally.chunks_by_server += 1,
            _ => context.record.tally.chunks_by_vans += 1,
        }
        if link.sent.insert(chunk, context.now).is_some() {
            context.record.tally.chunks_again += 1;
        }
        context.send(link.address, datagram);
    }
}
