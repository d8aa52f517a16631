//! HAVE: what a node tells its partners of the chunks that it has.
//!
//! New chunks are told soon, and all chunks from time to time, since a HAVE may be lost. A node that has nothing sends a
//! keepalive instead, so that the partner sees that it is there.

use crate::bits;
use crate::context::Context;
use crate::node::Node;
use crate::timing::ANNOUNCE_ALL;
use ppspp::Message;

impl Node {
    /// Tells each partner what it is due to hear.
    pub(crate) fn announce(&mut self, context: &mut Context<'_>) {
        for at in 0..self.links.len() {
            let link = &self.links[at];
            let Some(channel) = self.open_channel(link) else {
                continue;
            };
            if !link.peer_is_open() {
                continue;
            }
            let map = self.store.view().map.to_vec();
            let all = context.now >= link.announce_all;
            let told = match all {
                true => map.clone(),
                false => {
                    let new = bits::without(&map, &link.announced);
                    bits::without(&new, self.has(&channel))
                }
            };
            if !all && bits::count(&told) == 0 {
                continue;
            }
            let link = &mut self.links[at];
            link.announced = map;
            if all {
                link.announce_all = context.now + ANNOUNCE_ALL;
            }
            let address = link.address;
            let messages: Vec<Message> = self
                .names(&told)
                .into_iter()
                .map(|(first, last)| Message::Have { first, last })
                .collect();
            for datagram in self.compose(channel.peer, &messages) {
                context.send(address, datagram);
            }
        }
    }
}
