//! What is counted of a run.

use crate::datagram::Origin;

/// The numbers that the library answers with: 0 to 14.
pub const ANSWERS: usize = 15;

/// What happened to the datagrams of one origin.
#[derive(Clone, Copy, Debug, Default, PartialEq, Eq)]
pub struct Taken {
    /// How often each number was answered.
    pub answers: [u64; ANSWERS],
    /// Chunks stored with the pack's bytes.
    pub stored: u64,
    /// Chunks stored with other bytes.
    pub stored_bad: u64,
}

/// What the nodes did, and what the checks found.
#[derive(Clone, Debug, Default, PartialEq, Eq)]
pub struct Tally {
    taken: [Taken; Origin::COUNT],
    /// Datagrams that arrived.
    pub arrived: u64,
    /// Datagrams that came to a van that was away.
    pub to_absent: u64,
    /// ACKs sent for chunks.
    pub acks: u64,
    /// Chunks that they name, counted anew for each ACK.
    pub acknowledged: u64,
    /// Chunks sent by the server.
    pub chunks_by_server: u64,
    /// Chunks sent by vans.
    pub chunks_by_vans: u64,
    /// Chunks sent once more, since no ACK that names them came.
    pub chunks_again: u64,
    /// Chunks asked for once more, since they did not come.
    pub requests_again: u64,
    /// HANDSHAKEs sent once more, since no answer came, or since the answer did not arrive.
    pub handshakes_again: u64,
    /// Channels that were called.
    pub called: u64,
    /// Of them, those to a partner that had been called before.
    pub reopened: u64,
    /// Calls that the store refused; a van keeps rows for its calls, so it should refuse none.
    pub calls_refused: u64,
    /// Channels that were opened for a caller.
    pub answered: u64,
    /// Open channels that the loader closed, since they were of no use.
    pub closed: u64,
    /// Open channels that a closing HANDSHAKE of the peer, or of the attacker, closed.
    pub closed_by_peer: u64,
    /// Calls that were given up.
    pub given_up: u64,
    /// Drop-outs of vans.
    pub drop_outs: u64,
    /// Bytes that were not the pack's, in all comparisons.
    pub bad_bytes: u64,
    /// Chunks that were held and then no longer.
    pub vanished: u64,
    /// Refused datagrams after which a room was another.
    pub changed_by_refusal: u64,
    /// Chunks that were compared with the pack.
    pub compared: u64,
}

impl Tally {
    /// What happened to the datagrams of an origin.
    pub fn taken(&self, origin: Origin) -> &Taken {
        &self.taken[origin.place()]
    }

    /// The same, for counting.
    pub fn taken_mut(&mut self, origin: Origin) -> &mut Taken {
        &mut self.taken[origin.place()]
    }

    /// A sum over all origins that a choice lets in.
    pub fn sum(&self, chosen: impl Fn(Origin) -> bool, number: impl Fn(&Taken) -> u64) -> u64 {
        let origins = Origin::all().filter(|&origin| chosen(origin));
        origins.map(|origin| number(self.taken(origin))).sum()
    }

    /// How many chunks an ACK names on average, rounded down.
    pub fn chunks_an_ack(&self) -> u64 {
        self.acknowledged.checked_div(self.acks).unwrap_or(0)
    }

    /// How often something was sent once more.
    pub fn retransmissions(&self) -> u64 {
        self.chunks_again + self.requests_again + self.handshakes_again
    }
}
