//! What a sender repeats: the chunks that no ACK has named.

use crate::support::{built, content};
use ppspp::{Addressing, Store};
use yard::checks::Pack;
use yard::context::{Context, Outgoing};
use yard::datagram::{Datagram, Origin};
use yard::node::{Node, SERVER};
use yard::random::Random;
use yard::record::{chunk_of, Record};
use yard::timing::SEND_AGAIN;

/// The server as a node, and a van that has a channel to it.
struct Link {
    server: Node,
    van: Store,
    record: Record,
}

impl Link {
    /// The pack has three chunks.
    fn new(addressing: Addressing) -> Link {
        let store = built(addressing);
        let mut van = Store::start(store.order().expect("it was built")).expect("a pack's length");
        let calling = van.open(17).expect("a free row").to_vec();
        let mut link = Link {
            server: Node::new(SERVER, store, 2, Random::new(1)),
            van,
            record: Record::new(Pack::new(content()), 2),
        };
        let answering = link.bring(calling).expect("our HANDSHAKE");
        link.van.take(0, 0, &answering).expect("it is answered");
        link
    }

    /// The server acts at a time; what it sends, one datagram at most.
    fn act<T>(
        &mut self,
        now: u64,
        action: impl FnOnce(&mut Node, &mut Context<'_>) -> T,
    ) -> (T, Option<Vec<u8>>) {
        let mut out: Vec<Outgoing> = Vec::new();
        let mut context = Context {
            now,
            record: &mut self.record,
            out: &mut out,
        };
        let result = action(&mut self.server, &mut context);
        assert!(out.len() <= 1);
        (result, out.pop().map(|sent| sent.bytes))
    }

    /// Brings a datagram of the van to the server; the reply.
    fn bring(&mut self, bytes: Vec<u8>) -> Option<Vec<u8>> {
        let datagram = Datagram {
            from: 1,
            to: SERVER,
            bytes,
            origin: Origin::Honest,
        };
        self.act(0, |server, context| server.receive(context, &datagram))
            .1
    }

    /// The chunks that the server sends at a time, until it has no more to send, each with its datagram.
    fn served(&mut self, now: u64) -> Vec<(u32, Vec<u8>)> {
        let addressing = self.van.addressing();
        let mut served = Vec::new();
        while let (true, Some(bytes)) = self.act(now, Node::serve) {
            served.push((chunk_of(addressing, &bytes).expect("a chunk"), bytes));
        }
        served
    }
}

/// The van asks for all three chunks and gets them; of its ACKs only some come back. The chunks that are sent again.
fn repeated(addressing: Addressing, arriving: &[usize]) -> Vec<u32> {
    let mut link = Link::new(addressing);
    let peer = link.van.channel(17).expect("it is open").peer;
    let composer = link.van.compose(peer).and_then(|c| c.request(0, 0));
    let composer = composer
        .and_then(|c| c.request(1, 1))
        .and_then(|c| c.request(2, 2));
    let request = composer.expect("it fits").finish().to_vec();
    assert_eq!(link.bring(request), None);
    let served = link.served(0);
    assert!(served.iter().map(|(chunk, _)| *chunk).eq(0..3));
    let acks: Vec<Vec<u8>> = served
        .iter()
        .map(|(_, bytes)| link.van.take(0, 0, bytes).expect("a true chunk").to_vec())
        .collect();
    for &place in arriving {
        assert_eq!(link.bring(acks[place].clone()), None);
    }
    assert_eq!(link.served(SEND_AGAIN - 1), []);
    let again: Vec<u32> = link
        .served(SEND_AGAIN)
        .into_iter()
        .map(|sent| sent.0)
        .collect();
    assert_eq!(link.record.tally.chunks_again, again.len() as u64);
    again
}

/// By 02, No. 2, the ACKs of chunks 0, 1 and 2 name 0, 0..1 and 0..2.
#[test]
fn an_ack_of_a_run_settles_all_of_it() {
    let repeated = |arriving: &[usize]| repeated(Addressing::Ranges, arriving);
    assert_eq!(repeated(&[]), [0, 1, 2]);
    assert_eq!(repeated(&[0]), [1, 2]);
    assert_eq!(repeated(&[1]), [2]);
    assert_eq!(repeated(&[2]), []);
}

/// Under bins they name 0, 0..1 and 2.
#[test]
fn an_ack_of_a_subtree_settles_all_of_it() {
    let repeated = |arriving: &[usize]| repeated(Addressing::Bins, arriving);
    assert_eq!(repeated(&[]), [0, 1, 2]);
    assert_eq!(repeated(&[0]), [1, 2]);
    assert_eq!(repeated(&[1]), [2]);
    assert_eq!(repeated(&[2]), [0, 1]);
    assert_eq!(repeated(&[1, 2]), []);
}
