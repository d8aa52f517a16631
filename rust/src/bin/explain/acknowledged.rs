//! What the ACK in a reply names.

use crate::naming::Naming;
use crate::words::{self, counted};
use ppspp::{Bin, Message};

/// The chunks that an ACK names.
#[derive(Clone, Copy)]
pub struct Acknowledged {
    /// The first of them.
    pub first: u32,
    /// The last of them.
    pub last: u32,
    /// Their bin, where messages name chunks by bins.
    pub bin: Option<Bin>,
}

impl Acknowledged {
    /// What the ACK in a reply names; none where the reply has none.
    pub fn by(naming: Naming, reply: &[u8]) -> Option<Acknowledged> {
        let mut messages = naming.messages(reply).flatten();
        messages.find_map(|(_, message)| match message {
            Message::Ack { first, last, .. } => Some(Acknowledged {
                first,
                last,
                bin: message.bin().filter(|_| naming.is_bins()),
            }),
            _ => None,
        })
    }

    /// How many they are.
    pub fn count(self) -> usize {
        (self.last - self.first) as usize + 1
    }

    /// In words, such as `0..6 (run of 7)` or `chunk 4`; under bins such as `4..5 (bin 9, 2 chunks)` or
    /// `chunk 4 (bin 8)`.
    pub fn words(self) -> String {
        let Acknowledged { first, last, bin } = self;
        let (range, chunks) = (words::range(first, last), words::chunks(first, last));
        match (bin, self.count()) {
            (None, 1) => chunks,
            (None, count) => format!("{range} (run of {})", words::count(count)),
            (Some(Bin(bin)), 1) => format!("{chunks} (bin {bin})"),
            (Some(Bin(bin)), count) => format!("{range} (bin {bin}, {})", counted(count, "chunk")),
        }
    }
}
