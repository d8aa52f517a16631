//! The entry points as values: a call with its arguments, which the proved code
//! and `second` can both be given, and what it gives back.

use crate::naming::{self, Answer};
use crate::numbers::numbers;
use crate::rooms::Rooms;
use ppspp::calls::{self, Answered, Taken};
use ppspp::Order;
use second::channel::{self as channel, Outcome, State};
use second::hex;
use second::sha256::Digest;
use second::wire::Message;
use std::fmt;

/// A call with its arguments, but for the state and the rooms.
#[derive(Clone)]
pub enum Call {
    /// The method is the number of an addressing, or of none.
    Start {
        root: Digest,
        length: u32,
        method: u32,
    },
    Build {
        length: u32,
        method: u32,
        content: Vec<u8>,
    },
    Open {
        id: u32,
    },
    Take {
        clock: u64,
        id: u32,
        datagram: Vec<u8>,
    },
    Write {
        id: u32,
        chunk: u32,
        clock: u64,
    },
    Ask,
    Begin {
        destination: u32,
    },
    /// To the datagram in the first `len` bytes of the reply room; the hash,
    /// chunk or root of the message is in `source`.
    Add {
        method: u32,
        len: usize,
        message: Message,
        source: Vec<u8>,
    },
}

/// What a call gives back.
#[derive(Clone, Debug, Default, PartialEq, Eq)]
pub struct Told {
    pub number: u32,
    /// The length of the reply or of the datagram so far; 0 for a call that has
    /// neither.
    pub len: usize,
    /// What asking tells: the held count, and 1 where all are held. Zeros for
    /// other calls.
    pub held: [u32; 2],
    /// The node that taking in names.
    pub node: Option<u64>,
}

impl Told {
    /// A number, and nothing else.
    pub fn number(number: u32) -> Self {
        Told {
            number,
            ..Told::default()
        }
    }

    /// The number, and the node that it names.
    pub fn answer(&self) -> Answer {
        (self.number, self.node)
    }

    /// What asking gives: a number, the held count, and 1 where all are held.
    fn asked((number, held, whole): (u32, u32, u32)) -> Self {
        Told {
            held: [held, whole],
            ..Told::number(number)
        }
    }
}

impl From<Answered> for Told {
    fn from((number, len): Answered) -> Self {
        Told {
            len,
            ..Told::number(number)
        }
    }
}

impl From<Taken> for Told {
    fn from((number, len, node): Taken) -> Self {
        Told {
            node: naming::written(node),
            ..Told::from((number, len))
        }
    }
}

impl From<Outcome> for Told {
    fn from(outcome: Outcome) -> Self {
        Told {
            node: outcome.node,
            ..Told::from((outcome.number.into(), outcome.length))
        }
    }
}

impl Call {
    /// Whether it starts or builds a store, and so has no reply.
    pub fn starts(&self) -> bool {
        matches!(self, Call::Start { .. } | Call::Build { .. })
    }

    /// Whether it begins or adds, and so is lent the reply room alone: no state,
    /// and no other room.
    pub fn composes(&self) -> bool {
        matches!(self, Call::Begin { .. } | Call::Add { .. })
    }

    /// Gives it to the proved code.
    pub fn to_proved(&self, state: &mut [u32], rooms: &mut Rooms) -> Told {
        match self {
            Call::Start {
                root,
                length,
                method,
            } => {
                let order = Order::new(*root, *length).method(*method);
                Told::number(calls::start(rooms.lend(state), &order))
            }
            Call::Build {
                length,
                method,
                content,
            } => {
                let order = Order::to_build(*length).method(*method);
                Told::number(calls::build(rooms.lend(state), &order, content))
            }
            Call::Open { id } => calls::open(rooms.lend(state), *id).into(),
            Call::Take {
                clock,
                id,
                datagram,
            } => calls::take(rooms.lend(state), *clock, *id, datagram).into(),
            Call::Write { id, chunk, clock } => {
                calls::write(rooms.lend(state), *id, *chunk, *clock).into()
            }
            Call::Ask => Told::asked(calls::ask(state, &rooms.map)),
            Call::Begin { destination } => calls::begin(&mut rooms.reply, *destination).into(),
            Call::Add {
                method,
                len,
                message,
                source,
            } => calls::add(&mut rooms.reply, *method, *len, numbers(message, source)).into(),
        }
    }

    /// Gives it to `second`.
    pub fn to_second(&self, state: &mut State, rooms: &mut Rooms) -> Told {
        let lent = &mut rooms.lend_to_second();
        let outcome = match self {
            Call::Start {
                root,
                length,
                method,
            } => channel::start(state, lent, root, *length, *method),
            Call::Build {
                length,
                method,
                content,
            } => channel::build(state, lent, *length, *method, content),
            Call::Open { id } => channel::open(state, lent, *id),
            Call::Take {
                clock,
                id,
                datagram,
            } => channel::take(state, lent, *clock, *id, datagram),
            Call::Write { id, chunk, clock } => channel::write(state, lent, *id, *chunk, *clock),
            Call::Ask => {
                let held = channel::ask(state, &rooms.map);
                return Told::asked((held.number.into(), held.count, held.whole.into()));
            }
            Call::Begin { destination } => channel::begin(lent.reply, *destination),
            Call::Add {
                method,
                len,
                message,
                source,
            } => channel::add(lent.reply, *method, *len, message, source),
        };
        outcome.into()
    }
}

impl fmt::Display for Call {
    fn fmt(&self, f: &mut fmt::Formatter) -> fmt::Result {
        match self {
            Call::Start {
                root,
                length,
                method,
            } => {
                let root = hex::encode(root);
                write!(f, "start under {root}, {length}, method {method}")
            }
            Call::Build {
                length,
                method,
                content,
            } => {
                write!(
                    f,
                    "build {length} from {} bytes, method {method}",
                    content.len()
                )
            }
            Call::Open { id } => write!(f, "open {id}"),
            Call::Take {
                clock,
                id,
                datagram,
            } => {
                let datagram = hex::encode(datagram);
                write!(f, "take at {clock} with the ID {id}: {datagram}")
            }
            Call::Write { id, chunk, clock } => {
                write!(f, "write chunk {chunk} on {id} at {clock}")
            }
            Call::Ask => write!(f, "ask"),
            Call::Begin { destination } => write!(f, "begin to {destination}"),
            Call::Add {
                method,
                len,
                message,
                source,
            } => add_text(f, *method, *len, message, source),
        }
    }
}

fn add_text(
    f: &mut fmt::Formatter,
    method: u32,
    len: usize,
    message: &Message,
    source: &[u8],
) -> fmt::Result {
    let source = hex::encode(source);
    write!(
        f,
        "add to {len} bytes {message:?} from {source}, method {method}"
    )
}
