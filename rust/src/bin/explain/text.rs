//! The text form: a label and a sentence in each row, at most 100 columns wide.

use crate::explained::{End, First, Form, Line};
use crate::messages;
use crate::naming::Naming;
use crate::words::{self, count, counted};
use ppspp::{destination, Order};
use std::io::{self, Write};

/// The columns of a row.
const WIDTH: usize = 100;
/// The columns of a label.
const LABEL: usize = 10;

/// A writer of the text form.
pub struct Text<W> {
    writer: W,
}

impl<W: Write> Text<W> {
    /// One that writes there.
    pub fn new(writer: W) -> Self {
        Text { writer }
    }

    /// Writes a label and a text beside it, in as many rows as it takes.
    fn row(&mut self, label: &str, text: &str) -> io::Result<()> {
        let mut row = format!("{label:LABEL$}");
        let mut empty = true;
        for word in text.split(' ') {
            if !empty && row.len() + 1 + word.len() > WIDTH {
                writeln!(self.writer, "{row}")?;
                row = " ".repeat(LABEL);
                empty = true;
            }
            // A label that fills its columns is still set off.
            if !empty || !row.ends_with(' ') {
                row.push(' ');
            }
            row.push_str(word);
            empty = false;
        }
        writeln!(self.writer, "{row}")
    }

    /// Writes a row if there is something to be written.
    fn row_if(&mut self, label: &str, text: Option<&str>) -> io::Result<()> {
        text.map_or(Ok(()), |text| self.row(label, text))
    }

    /// An empty row.
    fn gap(&mut self) -> io::Result<()> {
        writeln!(self.writer)
    }

    /// Writes a reply, or that its bytes are none.
    fn reply(&mut self, naming: Naming, reply: &[u8]) -> io::Result<()> {
        if reply.is_empty() {
            return Ok(());
        }
        let text = match destination(reply) {
            Some(to) => format!("to channel {to}: {}", messages::all(naming, reply)),
            None => format!("{}, no datagram", counted(reply.len(), "byte")),
        };
        self.row("reply", &text)
    }

    /// Writes how often each number was given.
    fn numbers(&mut self, end: &End) -> io::Result<()> {
        let refused = end.numbers.iter().filter(|(&number, _)| number != 0);
        let total: usize = refused.clone().map(|(_, times)| times).sum();
        let lines = counted(end.lines, "line");
        self.row("refused", &format!("{} of {lines}", count(total)))?;
        for (&number, &times) in refused {
            let (times, text) = (count(times), words::sentence(number));
            self.row("", &format!("{number:02x}: {times} ({text})"))?;
        }
        Ok(())
    }
}

/// An order in words.
fn order(order: &Order) -> String {
    let n = order.chunk_count();
    let size = ppspp::sizes::CHUNK_SIZE;
    let last = order.length - n.saturating_sub(1) * size;
    let (length, last) = (
        counted(order.length as usize, "byte"),
        counted(last as usize, "byte"),
    );
    let chunks = counted(n as usize, "chunk");
    let bins = if Naming::of(order).is_bins() {
        "; messages name them by bins"
    } else {
        ""
    };
    format!("the order: {length} in {chunks}, the last of {last}{bins}")
}

/// Where and when a line's datagram came.
fn place(line: &Line) -> String {
    let Some(frame) = &line.frame else {
        return "no frame".to_string();
    };
    let clock = format!("clock {}", frame.clock);
    let Some(to) = destination(&frame.datagram) else {
        return format!("{clock}, no destination");
    };
    match line.channel {
        Some(channel) => {
            let (row, peer) = (channel.row, channel.peer);
            format!("{clock}, to channel {to} (row {row}, peer's channel {peer})")
        }
        None => format!("{clock}, to channel {to}"),
    }
}

impl<W: Write> Form for Text<W> {
    fn first(&mut self, first: &First) -> io::Result<()> {
        match &first.order {
            Ok(known) => {
                self.row("line 1", &order(known))?;
                self.row("root", &crate::digits::encode(&known.root))?;
            }
            Err(answer) => {
                self.row("line 1", "no order")?;
                self.row("answer", &format!("{} {}", answer.code(), answer.text()))?;
                self.row_if("reason", answer.reason.as_deref())?;
            }
        }
        if !first.given {
            self.row("answers", "those of this library, since no output is given")?;
        }
        self.row_if("DIFFERENT", first.difference.as_deref())?;
        self.gap()
    }

    fn line(&mut self, line: &Line) -> io::Result<()> {
        self.row(&format!("line {}", line.line), &place(line))?;
        if let Some(frame) = &line.frame {
            self.row("messages", &messages::all(line.naming, &frame.datagram))?;
        }
        let answer = &line.answer;
        self.row("answer", &format!("{} {}", answer.code(), answer.text()))?;
        self.row_if("reason", answer.reason.as_deref())?;
        if !line.effects.is_empty() {
            self.row("effect", &line.effects.join("; "))?;
        }
        self.reply(line.naming, &line.reply)?;
        self.row_if("DIFFERENT", line.difference.as_deref())?;
        self.gap()
    }

    fn end(&mut self, end: &End) -> io::Result<()> {
        match &end.held {
            Some(held) => {
                let (has, lacks) = (words::list(&held.held), words::list(&held.missing));
                self.row("the end", &format!("held: {has}; missing: {lacks}"))?;
                let whole = if held.missing.is_empty() { "yes" } else { "no" };
                self.row("whole", whole)?;
                self.numbers(end)?;
            }
            None => {
                let lines = counted(end.lines, "line");
                self.row("the end", &format!("{lines} behind line one, not answered"))?;
            }
        }
        for difference in &end.differences {
            self.row("DIFFERENT", difference)?;
        }
        match end.agrees {
            Some(true) => self.row("output", "it has the answers of this library"),
            Some(false) => self.row("output", "it DIFFERS from this library, see above"),
            None => Ok(()),
        }
    }
}
