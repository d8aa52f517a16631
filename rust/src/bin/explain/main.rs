//! `explain INPUT [OUTPUT] [--json] [--addressing bins]`: a replay program's input and output in plain words, for
//! whoever asks why a datagram was refused.
//!
//! The output has numbers alone. This program follows the input with a store of its own, compares its answers with the
//! output's, and works out the reasons from what the store knew before each datagram; the node of a missing or a wrong
//! hash is the one that the library names.

#![forbid(unsafe_code)]

mod acknowledged;
mod arguments;
mod digits;
mod effects;
mod explain;
mod explained;
mod follow;
mod frame;
mod json;
mod known;
mod layout;
mod malformed;
mod messages;
mod naming;
mod object;
mod opening;
mod options;
mod output;
mod proof;
mod reason;
mod text;
mod tree;
mod words;

use arguments::{Arguments, USAGE};
use std::io::{self, BufWriter, Write};
use std::path::Path;
use std::process::ExitCode;

/// The status where the output has another answer than the library.
const DIFFERENT: u8 = 1;
/// The status where nothing could be explained: a file cannot be read, or the arguments are others.
const FAILED: u8 = 2;

fn main() -> ExitCode {
    match run() {
        Ok(true) => ExitCode::SUCCESS,
        Ok(false) => ExitCode::from(DIFFERENT),
        Err(text) => {
            // There is no one to tell if this fails too.
            let _ = writeln!(io::stderr(), "explain: {text}");
            ExitCode::from(FAILED)
        }
    }
}

/// Whether the output agrees with the library; else why nothing could be explained.
fn run() -> Result<bool, String> {
    let arguments = arguments::read(std::env::args_os().skip(1))?;
    let Arguments::Files {
        input,
        output,
        json,
        addressing,
    } = arguments
    else {
        return write(&mut io::stdout(), USAGE);
    };
    if !ppspp::sizes::library_matches() {
        return Err("the linked library has another layout of the state".to_string());
    }
    let input = read(&input)?;
    let output = output.map(|path| read(&path)).transpose()?;
    let mut writer = BufWriter::new(io::stdout().lock());
    let agrees = if json {
        let mut form = object::Json::new(&mut writer);
        explain::explain(&input, output.as_deref(), addressing, &mut form)
    } else {
        let mut form = text::Text::new(&mut writer);
        explain::explain(&input, output.as_deref(), addressing, &mut form)
    };
    let written = agrees.and_then(|agrees| writer.flush().map(|()| agrees));
    written.map_err(cannot_write)
}

/// The bytes of a file.
fn read(path: &Path) -> Result<Vec<u8>, String> {
    std::fs::read(path).map_err(|error| format!("{} cannot be read: {error}", path.display()))
}

/// Writes a text.
fn write(writer: &mut impl Write, text: &str) -> Result<bool, String> {
    let written = writer
        .write_all(text.as_bytes())
        .and_then(|()| writer.flush());
    written.map(|()| true).map_err(cannot_write)
}

/// What is told where the output of this program cannot be written.
fn cannot_write(error: io::Error) -> String {
    format!("the explanation cannot be written: {error}")
}
