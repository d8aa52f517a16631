//! How the messages of a trace name chunks, and what they name in words.

use crate::words;
use ppspp::{Addressing, Message, Messages, Order};

/// How messages name chunks, and how many the pack has.
#[derive(Clone, Copy)]
pub struct Naming {
    addressing: Addressing,
    n: u32,
}

impl Naming {
    /// That of an order.
    pub fn of(order: &Order) -> Naming {
        Naming {
            addressing: order.known_addressing().unwrap_or_default(),
            n: order.chunk_count(),
        }
    }

    /// Whether it is by bins.
    pub fn is_bins(self) -> bool {
        self.addressing == Addressing::Bins
    }

    /// The messages of a datagram.
    pub fn messages(self, datagram: &[u8]) -> Messages<'_> {
        ppspp::messages(self.addressing, datagram)
    }

    /// What a message names, such as `chunks 4..5` or `chunk 6`; under bins such as `chunks 4..6 (bin 11)`.
    pub fn chunks(self, message: &Message<'_>) -> String {
        match message.range() {
            Some((first, last)) if !self.is_bins() => words::chunks(first, last),
            _ => self.bin(message),
        }
    }

    /// The same among others of its type: a range is told without a word before it.
    pub fn in_list(self, message: &Message<'_>) -> String {
        match message.range() {
            Some((first, last)) if !self.is_bins() => words::range(first, last),
            _ => self.bin(message),
        }
    }

    /// The bin of a message, cut to the pack where its part inside is meant.
    fn bin(self, message: &Message<'_>) -> String {
        let words = message.in_words(Addressing::Bins).in_pack(self.n);
        words.chunks().to_string()
    }

    /// What is wrong with a message that names chunks past the pack. Of a bin all must be past, but for DATA and
    /// INTEGRITY.
    pub fn past(self, message: &Message<'_>) -> Option<&'static str> {
        let (first, last) = message.range()?;
        let exact = matches!(message, Message::Data { .. } | Message::Integrity { .. });
        let (reach, words) = if self.is_bins() && !exact {
            (first, "lies wholly past the pack")
        } else {
            (last, "runs past the pack")
        };
        (reach >= self.n).then_some(words)
    }
}
