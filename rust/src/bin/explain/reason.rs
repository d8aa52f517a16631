//! Why a datagram got its number, as far as it can be told. What is said holds, whichever number the library gives.

use crate::known::Known;
use crate::layout;
use crate::options;
use crate::proof::Proof;
use crate::words::{count, counted};
use ppspp::sizes::{CHANNELS, MAX_DATAGRAM, MIN_DATAGRAM};
use ppspp::{destination, Message, Node};
use std::collections::BTreeMap;

/// The place of the options in a datagram that is a HANDSHAKE: behind the destination, the type and the source.
const OPTIONS: usize = 9;

/// A datagram, and what was known before it.
pub struct Case<'a> {
    /// The datagram.
    pub datagram: &'a [u8],
    /// What the store knew before it.
    pub known: &'a Known,
    /// The node that the library names with the number that is explained.
    pub node: Option<Node>,
    /// The channels that were closed, each with the line that did it.
    pub closed: &'a BTreeMap<u32, usize>,
}

impl Case<'_> {
    /// Why a number is given; none where that cannot be told, or is not so.
    pub fn reason(&self, number: u8) -> Option<String> {
        let length = self.datagram.len();
        if !(MIN_DATAGRAM..=MAX_DATAGRAM).contains(&length) {
            return (number == 1).then(|| format!("it has {}", counted(length, "byte")));
        }
        if let Some(fault) = layout::fault(self.known.naming(), self.datagram) {
            return (fault.number == number).then(|| fault.sentence());
        }
        match number {
            3 => self.new_source(),
            4 => self.other_options(),
            5 => self.no_channel(),
            6 => self.no_free_row(),
            7 => self.range_past(),
            8 if self.range_past().is_none() => self.other_length(),
            9 => Some(self.proof()?.incomplete(self.node?)),
            10 => Some(self.proof()?.wrong(self.node?)),
            _ => None,
        }
    }

    /// The datagram's destination.
    fn destination(&self) -> u32 {
        destination(self.datagram).unwrap_or_default()
    }

    /// The messages.
    fn messages(&self) -> impl Iterator<Item = Message<'_>> {
        let read = self.known.naming().messages(self.datagram).flatten();
        read.map(|(_, message)| message)
    }

    /// The source of a HANDSHAKE, which is alone.
    fn source(&self) -> Option<u32> {
        self.messages().find_map(|message| match message {
            Message::Handshake { source, .. } => Some(source),
            _ => None,
        })
    }

    /// 3: a HANDSHAKE from a new source to an open channel.
    fn new_source(&self) -> Option<String> {
        let source = self.source()?;
        let channel = self.known.channel(self.destination())?;
        let (id, peer) = (channel.id, channel.peer);
        (source != 0 && source != peer).then(|| {
            format!(
                "channel {id} is open to the peer's channel {peer}, not to its channel {source}"
            )
        })
    }

    /// 4: options that are missing or others.
    fn other_options(&self) -> Option<String> {
        self.source().filter(|&source| source != 0)?;
        options::difference(self.datagram.get(OPTIONS..)?, &self.known.order)
    }

    /// 5: a destination that is no channel of ours.
    fn no_channel(&self) -> Option<String> {
        let id = self.destination();
        if id == 0 {
            let opens = self.source().is_some();
            return (!opens).then(|| "only a HANDSHAKE may go to channel 0".to_string());
        }
        if self.known.channel(id).is_some() {
            return None;
        }
        let closed = self.closed.get(&id);
        let why = match closed {
            Some(line) => format!("channel {id} was closed by line {line}"),
            None => format!("there was never a channel {id}"),
        };
        Some(format!("{why}; {}", self.open_channels()))
    }

    /// The open channels in words.
    fn open_channels(&self) -> String {
        let each = self.known.channels.iter();
        let each = each.map(|channel| format!("{} (peer {})", channel.id, channel.peer));
        let each: Vec<String> = each.collect();
        if each.is_empty() {
            return "none is open".to_string();
        }
        format!("open: {}", each.join(", "))
    }

    /// 6: no row for a new channel.
    fn no_free_row(&self) -> Option<String> {
        let source = self.source()?;
        let full = self.known.channels.len() == CHANNELS as usize;
        (full && self.destination() == 0).then(|| {
            let open = self.open_channels();
            format!("no row is free for the peer's channel {source}; {open}")
        })
    }

    /// 7: the first message past the pack.
    fn range_past(&self) -> Option<String> {
        let naming = self.known.naming();
        let past = |message| Some((naming.past(&message)?, message));
        let (past, message) = self.messages().find_map(past)?;
        let (name, chunks) = (message.name(), naming.chunks(&message));
        let last = self.known.n - 1;
        Some(format!(
            "{name} of {chunks} {past}, whose last chunk is {last}"
        ))
    }

    /// 8: DATA for a chunk of the pack that is longer or shorter.
    fn other_length(&self) -> Option<String> {
        let (chunk, came) = self.messages().find_map(|message| match message {
            Message::Data { first, bytes, .. } => Some((first, bytes.len())),
            _ => None,
        })?;
        let wanted = self.known.chunk_length(chunk);
        (came != wanted).then(|| {
            let (came, wanted) = (counted(came, "byte"), count(wanted));
            format!("chunk {chunk} came with {came}, it has {wanted}")
        })
    }

    /// 9 and 10: DATA with its hashes.
    fn proof(&self) -> Option<Proof<'_>> {
        Proof::of(self.known, self.messages())
    }
}
