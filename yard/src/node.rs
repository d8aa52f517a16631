//! A node of the yard, the server or a van: a store, and a loader around it that decides what to send.

use crate::bits;
use crate::context::Context;
use crate::datagram::{Datagram, Origin};
use crate::link::{Former, Link};
use crate::naming;
use crate::random::Random;
use crate::record::Answer;
use crate::requests::Ask;
use ppspp::{destination, Channel, Message, Order, Phase, Refusal, Store};
use std::collections::{BTreeMap, VecDeque};

/// The server's number and address; the vans have those from 1 on.
pub const SERVER: usize = 0;

/// The server or a van.
#[derive(Debug)]
pub struct Node {
    /// Its number, which is its address too.
    pub number: usize,
    /// Its pack.
    pub store: Store,
    /// Whether it has power.
    pub present: bool,
    /// Whether it is to look for a chunk to send, as soon as its transmitter is free.
    pub serve_soon: bool,
    /// Whether its transmitter is planned to be given a chunk.
    pub serving: bool,
    /// The held counts at which its power fails, the next one last.
    pub failures: Vec<u32>,
    pub(crate) order: Order,
    pub(crate) random: Random,
    pub(crate) links: Vec<Link>,
    /// Channels that were closed of late, the latest last.
    pub(crate) former: VecDeque<Former>,
    pub(crate) asks: BTreeMap<u32, Ask>,
    /// Until when each address is not called.
    pub(crate) avoid: Vec<u64>,
    /// Whether each address was called before.
    pub(crate) called_before: Vec<bool>,
    /// When the next newcomer is let in.
    pub(crate) next_newcomer: u64,
    /// The link after which the next chunk is looked for.
    pub(crate) turn: usize,
}

impl Node {
    /// A node with a store, among so many nodes.
    pub fn new(number: usize, store: Store, nodes: usize, random: Random) -> Node {
        let order = store.order().expect("the store has an order");
        Node {
            number,
            store,
            present: true,
            serve_soon: false,
            serving: false,
            failures: Vec::new(),
            order,
            random,
            links: Vec::new(),
            former: VecDeque::new(),
            asks: BTreeMap::new(),
            avoid: vec![0; nodes],
            called_before: vec![false; nodes],
            next_newcomer: 0,
            turn: 0,
        }
    }

    /// How many chunks its map has.
    pub fn held(&self) -> u32 {
        bits::count(self.store.view().map)
    }

    /// Whether its map has all chunks.
    pub fn is_whole(&self) -> bool {
        self.held() == self.order.chunk_count()
    }

    /// The power comes back: the store is empty, and no channel is left.
    pub fn restart(&mut self) {
        self.store.restart(self.order).expect("it ran before");
        self.links.clear();
        self.former.clear();
        self.asks.clear();
        self.avoid.fill(0);
        self.called_before.fill(false);
        self.present = true;
    }

    /// What a node does from time to time.
    pub fn tick(&mut self, context: &mut Context<'_>) {
        self.look_after_rows(context);
        if self.number != SERVER && !self.is_whole() {
            self.call_a_partner(context);
            self.ask_for_chunks(context);
        }
        self.announce(context);
        self.serve_soon = true;
    }

    /// Takes in a datagram that arrived, whoever sent it, and sends the reply.
    pub fn receive(&mut self, context: &mut Context<'_>, datagram: &Datagram) -> Option<u32> {
        let caller = self.caller(datagram);
        let id = caller.map_or(0, |source| self.admit(context.now, datagram.from, source));
        let answer = self.take(context, id, &datagram.bytes, datagram.origin);
        let stored = answer.stored;
        match (answer.reply, caller) {
            (Ok(reply), Some(_)) => self.add_caller(context, id, datagram.from, reply),
            (Ok(reply), None) => self.follow(context, &datagram.bytes, stored, reply),
            (Err(Refusal::Id), Some(source)) => self.answer_again(context, datagram.from, source),
            (Err(Refusal::NoChannel), _) => self.tell_closed(context, &datagram.bytes),
            (Err(_), _) => {}
        }
        stored
    }

    /// Has the store take in a datagram; the record counts it and compares what is stored.
    pub(crate) fn take(
        &mut self,
        context: &mut Context<'_>,
        id: u32,
        bytes: &[u8],
        origin: Origin,
    ) -> Answer {
        let call = (context.now, id);
        context.record.take(&mut self.store, call, bytes, origin)
    }

    /// What follows from a datagram that was taken in on a channel.
    fn follow(
        &mut self,
        context: &mut Context<'_>,
        bytes: &[u8],
        stored: Option<u32>,
        reply: Vec<u8>,
    ) {
        let id = destination(bytes).expect("it was taken in");
        let Some(at) = self.links.iter().position(|link| link.id == id) else {
            return;
        };
        let Some(channel) = self.store.channel(id) else {
            context.record.tally.closed_by_peer += 1;
            self.forget_link(at);
            return;
        };
        if !reply.is_empty() {
            let addressing = self.store.addressing();
            context.record.note_ack(addressing, &reply);
            context.send(self.links[at].address, reply);
        }
        if let Some(chunk) = stored {
            self.asks.remove(&chunk);
            self.links[at].brought = Some(context.now);
        }
        self.note(context.now, at, channel, bytes);
    }

    /// Notes that a channel was heard of, and what it asked for.
    fn note(&mut self, now: u64, at: usize, channel: Channel, bytes: &[u8]) {
        let words = self.words();
        let wants = &self.store.view().wants[channel.row as usize * words..][..words];
        let link = &mut self.links[at];
        link.peer = channel.peer;
        link.forget_unwanted(wants);
        link.choked = link.choked.filter(|_| channel.choked);
        if channel.choked && link.choked.is_none() {
            link.choked = Some(now);
        }
        match self.store.messages(bytes).next() {
            // Our call is answered; a second answer changes nothing.
            Some(Ok((_, Message::Handshake { .. }))) if link.calls > 0 => {
                link.since = now;
                link.calls = 0;
            }
            Some(Ok((_, Message::Handshake { .. }))) => {}
            _ => link.heard = Some(now),
        }
        let asks = |found| matches!(found, Ok((_, Message::Request { .. })));
        if self.store.messages(bytes).any(asks) {
            link.asked = Some(now);
            self.serve_soon = true;
        }
    }

    /// The words of a row of bits.
    pub(crate) fn words(&self) -> usize {
        self.store.view().map.len()
    }

    /// The chunks of a row, as messages under the order name them.
    pub(crate) fn names(&self, row: &[u32]) -> Vec<(u32, u32)> {
        naming::names(self.store.addressing(), self.order.chunk_count(), row)
    }

    /// The chunks that the peer of a channel has told of.
    pub(crate) fn has(&self, channel: &Channel) -> &[u32] {
        let words = self.words();
        &self.store.view().has[channel.row as usize * words..][..words]
    }

    /// The chunks that the peer of a channel has asked for.
    pub(crate) fn wants(&self, channel: &Channel) -> &[u32] {
        let words = self.words();
        &self.store.view().wants[channel.row as usize * words..][..words]
    }

    /// The channel of a link, if it is open.
    pub(crate) fn open_channel(&self, link: &Link) -> Option<Channel> {
        let channel = self.store.channel(link.id)?;
        (channel.phase == Phase::Open).then_some(channel)
    }

    /// The datagrams of messages to the peer of a channel: one, or as many as the messages need.
    pub(crate) fn compose(&mut self, destination: u32, messages: &[Message<'_>]) -> Vec<Vec<u8>> {
        let mut datagrams = Vec::new();
        let mut rest = messages;
        loop {
            let begun = self.store.compose(destination);
            let mut composer = begun.expect("the reply room is large enough");
            let fit = rest.iter().take_while(|m| composer.add(**m).is_ok());
            rest = &rest[fit.count()..];
            datagrams.push(composer.finish().to_vec());
            if rest.is_empty() {
                return datagrams;
            }
        }
    }
}
