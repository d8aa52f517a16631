//! The messages of a datagram in words.

use crate::naming::Naming;
use crate::words::counted;
use ppspp::{Message, Options};

/// A message in words; hashes and chunk bytes are left out.
pub fn one(naming: Naming, message: &Message<'_>) -> String {
    let (name, of) = (message.name(), naming.chunks(message));
    match *message {
        Message::Handshake { source, options } => handshake(source, &options),
        Message::Data {
            timestamp, bytes, ..
        } => {
            let bytes = counted(bytes.len(), "byte");
            format!("DATA of {of}, {bytes}, sent at {timestamp}")
        }
        Message::Ack { delay, .. } => format!("ACK of {of}, delay {delay}"),
        Message::Choke | Message::Unchoke => name.to_string(),
        _ => format!("{name} of {of}"),
    }
}

/// A HANDSHAKE in words.
fn handshake(source: u32, options: &Options<'_>) -> String {
    match options {
        Options::End if source == 0 => "HANDSHAKE that closes the channel".to_string(),
        Options::End => format!("HANDSHAKE from channel {source} without options"),
        Options::Other => format!("HANDSHAKE from channel {source} with other options"),
        Options::Fixed { root } => {
            let root = crate::digits::encode(&root[..root.len().min(4)]);
            format!("HANDSHAKE from channel {source} with the profile's options, root {root}..")
        }
    }
}

/// Messages side by side that differ in what they name alone, or not at all.
struct Run {
    head: String,
    named: Vec<String>,
    times: usize,
}

impl Run {
    /// A message by itself.
    fn of(naming: Naming, message: &Message<'_>) -> Run {
        let grouped = matches!(
            message,
            Message::Have { .. }
                | Message::Integrity { .. }
                | Message::Request { .. }
                | Message::Cancel { .. }
                | Message::Empty { .. }
        );
        let (head, named) = if grouped {
            (message.name().to_string(), vec![naming.in_list(message)])
        } else {
            (one(naming, message), Vec::new())
        };
        Run {
            head,
            named,
            times: 1,
        }
    }

    /// The run in words.
    fn words(&self) -> String {
        match (&self.named[..], self.times) {
            ([], 1) => self.head.clone(),
            ([], times) => format!("{}, {times} times", self.head),
            (named, _) => format!("{} of {}", self.head, named.join(", ")),
        }
    }
}

/// All messages of a datagram in words, those of one kind side by side put together.
pub fn all(naming: Naming, datagram: &[u8]) -> String {
    let mut runs: Vec<Run> = Vec::new();
    let mut rest = None;
    for found in naming.messages(datagram) {
        let run = match found {
            Ok((_, message)) => Run::of(naming, &message),
            Err(malformed) => {
                rest = datagram.len().checked_sub(malformed.place);
                continue;
            }
        };
        match runs.last_mut() {
            Some(last) if last.head == run.head => {
                last.named.extend(run.named);
                last.times += 1;
            }
            _ => runs.push(run),
        }
    }
    let mut parts: Vec<String> = runs.iter().map(Run::words).collect();
    parts.extend(rest.map(|rest| format!("{} that cannot be read", counted(rest, "byte"))));
    if parts.is_empty() {
        return "none".to_string();
    }
    parts.join("; ")
}
