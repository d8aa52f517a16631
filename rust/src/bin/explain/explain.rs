//! An input and its output, followed line by line.

use crate::digits;
use crate::explained::{Answer, End, First, Form, Held, Line};
use crate::follow::{Follower, Turn};
use crate::frame::{self, Frame};
use crate::naming::Naming;
use crate::opening;
use crate::output::{Closing, Output, Said};
use crate::words::{self, counted, BAD_LINE, BAD_ORDER};
use ppspp::{Addressing, Order, Store};
use std::collections::BTreeMap;
use std::io;

/// What a difference means.
const MEANING: &str = "the output is not of this input, or of another version";

/// Explains an input, whose datagrams are under an addressing, and its output if it is given; tells whether the output
/// agrees with the library.
pub fn explain(
    input: &[u8],
    output: Option<&[u8]>,
    addressing: Addressing,
    form: &mut dyn Form,
) -> io::Result<bool> {
    let mut lines = digits::lines(input);
    let mut output = output.map(Output::read);
    let given = output.is_some();
    let (order, store) = match opening::start(lines.next(), addressing) {
        Ok(started) => started,
        Err(reason) => return explain_bad_order(reason, lines.count(), output.as_ref(), form),
    };
    let refused = output
        .take_if(|output| output.is_bad_order_alone())
        .is_some();
    let difference = refused.then(|| other_number(BAD_ORDER, "takes the order"));
    if refused {
        output = Some(Output::default());
    }
    form.first(&First {
        order: Ok(order),
        given,
        difference,
    })?;
    let mut run = Run {
        agrees: !refused,
        ..Run::new(order, store, output)
    };
    for line in lines {
        let line = run.line(line);
        form.line(&line)?;
    }
    let end = run.end();
    form.end(&end)?;
    Ok(end.agrees.unwrap_or(true))
}

/// A line one that is missing or bad, which is answered alone.
fn explain_bad_order(
    reason: String,
    lines: usize,
    output: Option<&Output<'_>>,
    form: &mut dyn Form,
) -> io::Result<bool> {
    let said = output.filter(|output| !output.is_bad_order_alone());
    let difference = said.map(|output| match output.said(0) {
        Said::Answer(BAD_ORDER, _) => format!("the output has more than 0c: {MEANING}"),
        Said::Answer(number, _) => other_number(number, "says 0c"),
        Said::Unreadable(why) => format!("the output's line 1 is no answer: {why}"),
        Said::Missing => format!("the output has no 0c: {MEANING}"),
    });
    let agrees = difference.is_none();
    let answer = Answer {
        number: BAD_ORDER,
        node: None,
        reason: Some(reason),
    };
    form.first(&First {
        order: Err(answer),
        given: output.is_some(),
        difference,
    })?;
    form.end(&End {
        held: None,
        lines,
        numbers: BTreeMap::from([(BAD_ORDER, 1)]),
        differences: Vec::new(),
        agrees: output.map(|_| agrees),
    })?;
    Ok(agrees)
}

/// The sentence for a number of the output that is not the library's.
fn other_number(number: u8, library: &str) -> String {
    format!("the output says {number:02x}, this library {library}: {MEANING}")
}

/// An input that is being followed.
struct Run<'a> {
    follower: Follower,
    naming: Naming,
    output: Option<Output<'a>>,
    /// The lines so far, behind line one.
    lines: usize,
    numbers: BTreeMap<u8, usize>,
    agrees: bool,
}

impl<'a> Run<'a> {
    /// One of no line so far, under an order.
    fn new(order: Order, store: Store, output: Option<Output<'a>>) -> Run<'a> {
        Run {
            follower: Follower::new(order, store),
            naming: Naming::of(&order),
            output,
            lines: 0,
            numbers: BTreeMap::new(),
            agrees: true,
        }
    }

    /// Explains the next line.
    fn line(&mut self, digits: &[u8]) -> Line {
        // Line one has been read.
        let line = self.lines + 2;
        let taken = frame::read(digits).map(|frame| {
            let turn = self.follower.take(line, &frame);
            (frame, turn)
        });
        let (number, reply, difference) = match &taken {
            Ok((_, turn)) => self.compared(turn.number, &turn.reply),
            Err(_) => self.compared(BAD_LINE, &[]),
        };
        let answer = self.answer(&taken, number);
        // They are the library's: where the output has another number, they say nothing of it.
        let (effects, acknowledged) = match &taken {
            Ok((_, turn)) if number == 0 => (turn.effects.clone(), turn.acknowledged),
            _ => (Vec::new(), None),
        };
        let (frame, channel) = match taken {
            Ok((frame, turn)) => (Some(frame), turn.channel),
            Err(_) => (None, None),
        };
        self.lines += 1;
        self.agrees &= difference.is_none();
        *self.numbers.entry(number).or_default() += 1;
        Line {
            line,
            naming: self.naming,
            frame,
            channel,
            answer,
            effects,
            acknowledged,
            reply,
            difference,
        }
    }

    /// What is told of a number, given for a frame that was taken in or for a line that is none.
    fn answer(&self, taken: &Result<(Frame, Turn), String>, number: u8) -> Answer {
        let (node, reason) = match taken {
            Ok((frame, turn)) => (turn.node(number), self.follower.reason(turn, frame, number)),
            Err(fault) => (None, (number == BAD_LINE).then(|| fault.clone())),
        };
        Answer {
            number,
            node,
            reason,
        }
    }

    /// The number and the reply to be explained, those of the output if it has any, and in what they differ from the
    /// library's own.
    fn compared(&self, own: u8, own_reply: &[u8]) -> (u8, Vec<u8>, Option<String>) {
        let library = |difference| (own, own_reply.to_vec(), difference);
        let Some(output) = &self.output else {
            return library(None);
        };
        match output.said(self.lines) {
            Said::Answer(number, reply) => {
                let difference = if number != own {
                    Some(other_number(number, &format!("says {own:02x}")))
                } else if reply != own_reply {
                    let other = "the output's reply is another than this library's";
                    Some(format!("{other}: {MEANING}"))
                } else {
                    None
                };
                (number, reply, difference)
            }
            Said::Unreadable(why) => {
                let line = self.lines + 1;
                let text = format!("line {line} of the output is no answer, {why}");
                library(Some(format!("{text}: explained is this library's")))
            }
            Said::Missing => {
                let text = "the output has no answer for this line: explained is this library's";
                library(Some(text.to_string()))
            }
        }
    }

    /// The end.
    fn end(self) -> End {
        let store = self.follower.store();
        let n = store.order().map_or(0, |order| order.chunk_count());
        let missing: Vec<u32> = store.missing().collect();
        let held = (0..n).filter(|chunk| !missing.contains(chunk));
        let held = words::ranges(held);
        let count = n as usize - missing.len();
        let differences = match &self.output {
            Some(output) => end_differences(output, self.lines, count, missing.is_empty()),
            None => Vec::new(),
        };
        let agrees = self.agrees && differences.is_empty();
        End {
            held: Some(Held {
                held,
                missing: words::ranges(missing.into_iter()),
            }),
            lines: self.lines,
            numbers: self.numbers,
            differences,
            agrees: self.output.map(|_| agrees),
        }
    }
}

/// In what an output's end differs from the library's.
fn end_differences(output: &Output<'_>, lines: usize, held: usize, whole: bool) -> Vec<String> {
    let mut differences = Vec::new();
    if output.len() != lines {
        let (answers, lines) = (counted(output.len(), "answer"), counted(lines, "line"));
        differences.push(format!(
            "the output has {answers}, this input {lines} to be answered: {MEANING}"
        ));
    }
    match output.closing {
        None => differences.push("the output has no closing line: it is cut short".to_string()),
        Some(closing) => {
            let Closing {
                whole: said,
                held: count,
            } = closing;
            if (said, usize::from(count)) != (whole, held) {
                let (output, library) = (closed(said, count.into()), closed(whole, held));
                differences.push(format!(
                    "the output closes with {output}, this library with {library}: {MEANING}"
                ));
            }
        }
    }
    differences
}

/// A closing line in words.
fn closed(whole: bool, held: usize) -> String {
    let (code, word) = if whole {
        ("ff", "whole")
    } else {
        ("f0", "not whole")
    };
    format!("{code}{held:04x} ({word}, {})", counted(held, "chunk"))
}
