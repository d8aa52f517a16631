//! Times and numbers that the nodes keep to. Times are in microseconds.

/// A second.
pub const SECOND: u64 = 1_000_000;

/// How long a transmitter needs for a byte: about a megabit in a second.
pub const BYTE_TIME: u64 = 8;

/// The least and the most time that a datagram is under way when it is sent.
pub const FLIGHT: (u64, u64) = (1_000, 3_000);

/// The least and the most time that a reordered datagram is late besides.
pub const LATE: (u64, u64) = (5_000, 80_000);

/// How often a node looks after its channels and requests.
pub const TICK: u64 = 100_000;

/// How long a call waits for its answer before the HANDSHAKE is sent again.
pub const CALL_AGAIN: u64 = 200_000;

/// How often a HANDSHAKE is sent before its row is given up.
pub const CALLS: u32 = 4;

/// How long after a newcomer the next one is let in.
pub const NEWCOMER: u64 = 20_000;

/// How long a request waits for its chunk before it is sent again.
pub const ASK_AGAIN: u64 = 500_000;

/// How often a chunk is asked of one partner before another is asked.
pub const ASKS: u32 = 3;

/// How many chunks may be asked of one partner at a time.
pub const WINDOW: usize = 8;

/// How long a sent chunk waits for an ACK that names it before it is sent again.
pub const SEND_AGAIN: u64 = 400_000;

/// How often a node tells its partners all that it has.
pub const ANNOUNCE_ALL: u64 = SECOND;

/// A channel that brought nothing at all by then is closed.
pub const PROBATION: u64 = 1_500_000;

/// A channel on which nothing came for so long is closed.
pub const SILENT: u64 = 3 * SECOND;

/// A channel that has been of no use for so long is closed.
pub const IDLE: u64 = 3 * SECOND;

/// A channel that has been choked for so long is closed.
pub const CHOKED: u64 = SECOND;

/// The least and the most time for which a partner is not called after a failure.
pub const AVOID: (u64, u64) = (SECOND / 2, 2 * SECOND);

/// The least and the most time for which a van is away after its power failed.
pub const AWAY: (u64, u64) = (SECOND, 4 * SECOND);

/// How many partners that have something new a van wants.
pub const PARTNERS: usize = 4;

/// How many closed channels a node remembers.
pub const FORMER: usize = 64;

/// How often a peer is told that a channel is closed on which it still sends.
pub const TELLINGS: u32 = 3;

/// The rows that a van keeps for its own calls; others may have the rest.
pub const OWN_ROWS: usize = 5;

/// The mean time between two of the attacker's datagrams to one node.
pub const ATTACK: u64 = 10_000;

/// One in so many overheard datagrams is kept by the attacker, and at most so many of each sort.
pub const OVERHEARD: (u64, usize) = (4, 64);
