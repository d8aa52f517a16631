//! The run: nodes, radio and attacker, event by event.

use crate::attacker::Attacker;
use crate::checks::{Pack, Verdict};
use crate::context::{Context, Outgoing};
use crate::datagram::{Datagram, Origin};
use crate::events::{Event, Events};
use crate::node::{Node, SERVER};
use crate::radio::{Faults, Radio};
use crate::random::Random;
use crate::record::Record;
use crate::timing::{ATTACK, AWAY, SECOND, TICK};
use ppspp::sizes::CHUNK_SIZE;
use ppspp::{Addressing, Order, Store};

/// What decides a run.
#[derive(Clone, Debug, PartialEq, Eq)]
pub struct Settings {
    /// The number of vans.
    pub vans: usize,
    /// The chunks of the pack.
    pub chunks: u32,
    /// How the order has messages name chunks.
    pub addressing: Addressing,
    /// The seed.
    pub seed: u64,
    /// The radio's faults.
    pub faults: Faults,
    /// Whether there is an attacker.
    pub attacker: bool,
    /// Whether vans drop out.
    pub drop_outs: bool,
    /// The simulated seconds after which the run ends in any case.
    pub seconds: u64,
}

/// A yard and its run so far.
#[derive(Debug)]
pub struct Yard {
    /// The server and the vans.
    pub nodes: Vec<Node>,
    /// The radio.
    pub radio: Radio,
    /// The record.
    pub record: Record,
    /// The time.
    pub now: u64,
    events: Events,
    attacker: Option<Attacker>,
    random: Random,
    limit: u64,
}

impl Yard {
    /// A yard at the start of its run: the server is whole, the vans are empty.
    pub fn new(settings: &Settings) -> Yard {
        let mut random = Random::new(settings.seed);
        let count = settings.vans + 1;
        let content = content(&mut random, settings.chunks);
        let to_build = Order::to_build(content.len() as u32).addressing(settings.addressing);
        let server = Store::build(to_build, &content).expect("a pack's length");
        let order = server.order().expect("it was built");
        let mut nodes = vec![Node::new(SERVER, server, count, random.split())];
        for number in 1..count {
            let store = Store::start(order).expect("a pack's length");
            let mut van = Node::new(number, store, count, random.split());
            if settings.drop_outs {
                van.failures = failures(&mut random, settings.chunks);
            }
            nodes.push(van);
        }
        let attacker = Attacker::new(order, count, random.split());
        let mut yard = Yard {
            nodes,
            radio: Radio::new(settings.faults, random.split(), count),
            record: Record::new(Pack::new(content), count),
            now: 0,
            events: Events::default(),
            attacker: settings.attacker.then_some(attacker),
            random,
            limit: settings.seconds * SECOND,
        };
        yard.plan_first();
        yard
    }

    /// Plans what happens from time to time.
    fn plan_first(&mut self) {
        for node in 0..self.nodes.len() {
            let at = self.random.below(TICK);
            self.events.plan(at, Event::Tick(node));
        }
        self.events.plan(SECOND, Event::Compare);
        if self.attacker.is_some() {
            self.events.plan(0, Event::Attack);
        }
    }

    /// Runs until all vans are whole, or to the limit.
    pub fn run(&mut self) {
        while !self.is_done() {
            let Some((at, event)) = self.events.pop() else {
                return;
            };
            if at > self.limit {
                self.now = self.limit;
                return;
            }
            self.now = at;
            self.happen(event);
        }
    }

    /// Whether all vans are there and whole.
    pub fn is_done(&self) -> bool {
        let mut vans = self.nodes[SERVER + 1..].iter();
        vans.all(|van| van.present && van.is_whole())
    }

    /// How each node stands, compared with the pack.
    pub fn verdicts(&self) -> Vec<Verdict> {
        let nodes = self.nodes.iter();
        nodes
            .map(|node| self.record.pack.verdict(&node.store))
            .collect()
    }

    /// How many datagrams are under way.
    pub fn under_way(&self) -> u64 {
        self.events.under_way()
    }

    fn happen(&mut self, event: Event) {
        match event {
            Event::Arrive(datagram) => self.arrive(&datagram),
            Event::Tick(node) => {
                if self.nodes[node].present {
                    self.act(node, Node::tick);
                }
                self.events.plan(self.now + TICK, Event::Tick(node));
            }
            Event::Serve(node) => {
                let served = self.nodes[node].present && self.act(node, Node::serve);
                self.nodes[node].serving = served;
                if served {
                    let free = self.radio.free_at(node);
                    self.events.plan(free, Event::Serve(node));
                }
            }
            Event::Return(node) => self.nodes[node].restart(),
            Event::Attack => self.attack(),
            Event::Compare => {
                let present = self.nodes.iter().filter(|node| node.present);
                present.for_each(|node| self.record.compare_all(&node.store));
                self.events.plan(self.now + SECOND, Event::Compare);
            }
        }
    }

    /// A node acts, and what it sends goes out.
    fn act<T>(&mut self, number: usize, action: impl Fn(&mut Node, &mut Context<'_>) -> T) -> T {
        let mut out = Vec::new();
        let mut context = Context {
            now: self.now,
            record: &mut self.record,
            out: &mut out,
        };
        let result = action(&mut self.nodes[number], &mut context);
        for Outgoing { to, bytes } in out {
            let datagram = Datagram {
                from: number,
                to,
                bytes,
                origin: Origin::Honest,
            };
            if let Some(attacker) = &mut self.attacker {
                attacker.overhear(&datagram);
            }
            self.send(datagram);
        }
        let node = &mut self.nodes[number];
        if std::mem::take(&mut node.serve_soon) && !node.serving {
            node.serving = true;
            let free = self.radio.free_at(number).max(self.now);
            self.events.plan(free, Event::Serve(number));
        }
        result
    }

    fn send(&mut self, datagram: Datagram) {
        for (at, copy) in self.radio.send(self.now, datagram) {
            self.events.plan(at, Event::Arrive(copy));
        }
    }

    fn arrive(&mut self, datagram: &Datagram) {
        let number = datagram.to;
        if !self.nodes[number].present {
            self.record.tally.to_absent += 1;
            return;
        }
        self.record.tally.arrived += 1;
        let stored = self.act(number, |node, context| node.receive(context, datagram));
        if stored.is_none() {
            return;
        }
        let held = self.nodes[number].held();
        self.record.note_held(self.now, number, held);
        if self.nodes[number].failures.last() == Some(&held) {
            self.drop_out(number);
        }
    }

    /// A van's power fails; it comes back later, with nothing.
    fn drop_out(&mut self, number: usize) {
        let van = &mut self.nodes[number];
        van.failures.pop();
        van.present = false;
        self.record.tally.drop_outs += 1;
        self.record.note_held(self.now, number, 0);
        let back = self.now + self.random.between(AWAY.0, AWAY.1);
        self.events.plan(back, Event::Return(number));
    }

    /// The attacker sends to any node, on average one datagram in `ATTACK` to each.
    fn attack(&mut self) {
        let made = self.attacker.as_mut().and_then(|a| a.attack(self.now));
        if let Some(datagram) = made {
            self.send(datagram);
        }
        let mean = ATTACK / self.nodes.len() as u64;
        let next = self.now + self.random.between(1, 2 * mean.max(1));
        self.events.plan(next, Event::Attack);
    }
}

/// A random content of so many chunks; in three of four runs the last one is short.
fn content(random: &mut Random, chunks: u32) -> Vec<u8> {
    let mut length = (chunks * CHUNK_SIZE) as usize;
    if random.below(4) != 0 {
        length -= random.place(CHUNK_SIZE as usize);
    }
    random.bytes(length)
}

/// The held counts at which a van's power fails: every second van has one, and one in four of these a second one.
fn failures(random: &mut Random, chunks: u32) -> Vec<u32> {
    let times = match random.below(8) {
        0 => 2,
        1..=3 => 1,
        _ => 0,
    };
    let any = |_| random.between(1, u64::from(chunks)) as u32;
    (0..times).map(any).collect()
}
