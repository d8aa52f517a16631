//! The JSON form: one object, with one entry a row for each line.

use crate::acknowledged::Acknowledged;
use crate::digits;
use crate::explained::{Answer, End, First, Form, Line};
use crate::json::Value;
use crate::messages;
use crate::naming::Naming;
use crate::words;
use ppspp::{destination, Message, Node, Options, Order};
use std::io::{self, Write};

/// A writer of the JSON form.
pub struct Json<W> {
    writer: W,
    /// Whether a line has been written.
    began: bool,
}

impl<W: Write> Json<W> {
    /// One that writes there.
    pub fn new(writer: W) -> Self {
        Json {
            writer,
            began: false,
        }
    }

    /// Writes a field of the whole object, with a comma behind it.
    fn field(&mut self, name: &str, value: impl Into<Value>) -> io::Result<()> {
        writeln!(self.writer, "\"{name}\": {},", value.into())
    }
}

/// An order.
fn order(order: &Order) -> Value {
    let mut fields: Vec<(&'static str, Value)> = vec![
        ("root", digits::encode(&order.root).into()),
        ("length", order.length.into()),
        ("chunks", order.chunk_count().into()),
    ];
    if Naming::of(order).is_bins() {
        fields.push(("addressing", "bins".into()));
    }
    Value::Object(fields)
}

/// An answer.
fn answer(answer: &Answer) -> Value {
    Value::Object(vec![
        ("number", u32::from(answer.number).into()),
        ("code", answer.code().into()),
        ("text", answer.text().into()),
        ("node", answer.node.map(node).into()),
        ("reason", answer.reason.clone().into()),
    ])
}

/// A node.
fn node(node: Node) -> Value {
    Value::Object(vec![
        ("number", node.number().into()),
        ("first", node.first().into()),
        ("last", node.last().into()),
    ])
}

/// The messages of a datagram; the last may be one that cannot be read.
fn all_messages(naming: Naming, datagram: &[u8]) -> Value {
    let each = naming.messages(datagram).map(|found| match found {
        Ok((place, read)) => message(naming, place, &read),
        Err(malformed) => Value::Object(vec![
            ("type", Value::Null),
            ("place", malformed.place.into()),
            ("text", malformed.to_string().into()),
        ]),
    });
    Value::Array(each.collect())
}

/// A message.
fn message(naming: Naming, place: usize, message: &Message<'_>) -> Value {
    let mut fields: Vec<(&'static str, Value)> =
        vec![("type", message.name().into()), ("place", place.into())];
    if let Some((first, last)) = message.range() {
        fields.push(("first", first.into()));
        fields.push(("last", last.into()));
    }
    if let Some(bin) = message.bin().filter(|_| naming.is_bins()) {
        fields.push(("bin", bin.0.into()));
    }
    match *message {
        Message::Handshake { source, options } => {
            fields.push(("source", source.into()));
            fields.extend(options_of(&options));
        }
        Message::Data {
            timestamp, bytes, ..
        } => {
            fields.push(("timestamp", timestamp.into()));
            fields.push(("bytes", bytes.len().into()));
        }
        Message::Ack { delay, .. } => fields.push(("delay", delay.into())),
        Message::Integrity { hash, .. } => fields.push(("hash", digits::encode(hash).into())),
        _ => {}
    }
    fields.push(("text", messages::one(naming, message).into()));
    Value::Object(fields)
}

/// The fields of a HANDSHAKE's options.
fn options_of(options: &Options<'_>) -> [(&'static str, Value); 2] {
    let (kind, root) = match options {
        Options::Fixed { root } => ("profile", Some(digits::encode(root))),
        Options::End => ("none", None),
        Options::Other => ("other", None),
    };
    [("options", kind.into()), ("root", root.into())]
}

/// A reply; null where there is none.
fn reply(naming: Naming, reply: &[u8]) -> Value {
    if reply.is_empty() {
        return Value::Null;
    }
    Value::Object(vec![
        ("destination", destination(reply).into()),
        ("messages", all_messages(naming, reply)),
        ("text", messages::all(naming, reply).into()),
    ])
}

/// What an ACK names.
fn acknowledged(chunks: Acknowledged) -> Value {
    let mut fields: Vec<(&'static str, Value)> =
        vec![("first", chunks.first.into()), ("last", chunks.last.into())];
    fields.extend(chunks.bin.map(|bin| ("bin", bin.0.into())));
    fields.push(("chunks", chunks.count().into()));
    Value::Object(fields)
}

/// Ranges, each as its first and last chunk.
fn ranges(ranges: &[(u32, u32)]) -> Value {
    let each = ranges.iter().map(|&(first, last)| vec![first, last]);
    each.collect::<Vec<_>>().into()
}

/// A line.
fn line(line: &Line) -> Value {
    let frame = line.frame.as_ref();
    let channel = line.channel.map(|channel| {
        Value::Object(vec![
            ("id", channel.id.into()),
            ("row", channel.row.into()),
            ("peer", channel.peer.into()),
        ])
    });
    let to = frame.and_then(|frame| destination(&frame.datagram));
    let came = frame.map(|frame| all_messages(line.naming, &frame.datagram));
    Value::Object(vec![
        ("line", line.line.into()),
        ("clock", frame.map(|frame| frame.clock).into()),
        ("destination", to.into()),
        ("channel", channel.into()),
        ("messages", came.into()),
        ("answer", answer(&line.answer)),
        ("effects", line.effects.clone().into()),
        ("acknowledged", line.acknowledged.map(acknowledged).into()),
        ("reply", reply(line.naming, &line.reply)),
        ("difference", line.difference.clone().into()),
    ])
}

/// How often each number other than 0 was given.
fn refusals(end: &End) -> Value {
    let refused = end.numbers.iter().filter(|(&number, _)| number != 0);
    let each = refused.map(|(&number, &times)| {
        Value::Object(vec![
            ("number", u32::from(number).into()),
            ("code", format!("{number:02x}").into()),
            ("text", words::sentence(number).into()),
            ("times", times.into()),
        ])
    });
    Value::Array(each.collect())
}

impl<W: Write> Form for Json<W> {
    fn first(&mut self, first: &First) -> io::Result<()> {
        writeln!(self.writer, "{{")?;
        let answers = if first.given { "output" } else { "library" };
        self.field("answers", answers)?;
        self.field("order", first.order.as_ref().ok().map(order))?;
        self.field("order_answer", first.order.as_ref().err().map(answer))?;
        self.field("order_difference", first.difference.clone())?;
        write!(self.writer, "\"lines\": [")
    }

    fn line(&mut self, explained: &Line) -> io::Result<()> {
        let comma = if self.began { "," } else { "" };
        self.began = true;
        write!(self.writer, "{comma}\n{}", line(explained))
    }

    fn end(&mut self, end: &End) -> io::Result<()> {
        writeln!(self.writer, "\n],")?;
        let held = end.held.as_ref();
        self.field("held", held.map(|held| ranges(&held.held)))?;
        self.field("missing", held.map(|held| ranges(&held.missing)))?;
        self.field("whole", held.map(|held| held.missing.is_empty()))?;
        self.field("line_count", end.lines)?;
        self.field("refusals", refusals(end))?;
        self.field("end_differences", end.differences.clone())?;
        writeln!(self.writer, "\"agrees\": {}", Value::from(end.agrees))?;
        writeln!(self.writer, "}}")
    }
}
