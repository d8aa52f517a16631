//! The command line.

use ppspp::Addressing;
use std::ffi::OsString;
use std::path::PathBuf;

/// What `--help` writes.
pub const USAGE: &str = "\
explain INPUT [OUTPUT] [--json] [--addressing bins]

INPUT is a replay program's input, OUTPUT what it wrote for it. Each line is told in words: what came, the answer, why
it was refused or what it did, and the reply. Without OUTPUT the answers are those of the library in this program.

Lines, the digits or characters of a line, and the messages of a datagram are counted from 1, its bytes from 0. Line N
of INPUT is answered by line N - 1 of OUTPUT. Ranges of chunks, such as 4..5, have both ends in them.

With --addressing bins, INPUT is that of a store under bins: its datagrams name chunks by bins, and are read so. Of a
bin that runs past the pack its part inside is told, such as chunks 4..6 (bin 11). Without it they have ranges, as those
of the replay program.

With --json it is one object: the order; its lines, one a row, each with line, clock, destination, channel, messages,
answer, effects, acknowledged, reply and difference; then what is held and missing, whether that is whole, the refusals
by number, and whether OUTPUT agrees. Where a chunk was taken, acknowledged has what this library's ACK names: the first
and the last chunk, under bins their bin, and how many chunks; else it is null.

The status is 0 if OUTPUT has the library's answers, 1 if it has others, and 2 if nothing could be explained.
";

/// What the arguments ask for.
pub enum Arguments {
    /// How to use the program.
    Help,
    /// An explanation.
    Files {
        /// The file with the replay program's input.
        input: PathBuf,
        /// The file with its output.
        output: Option<PathBuf>,
        /// Whether JSON is wanted.
        json: bool,
        /// How the input's datagrams name chunks.
        addressing: Addressing,
    },
}

/// The arguments behind the program's name; else what is wrong with them.
pub fn read(mut arguments: impl Iterator<Item = OsString>) -> Result<Arguments, String> {
    let mut json = false;
    let mut addressing = Addressing::default();
    let mut files = Vec::new();
    while let Some(argument) = arguments.next() {
        match argument.to_str() {
            Some("--help" | "-h") => return Ok(Arguments::Help),
            Some("--json") => json = true,
            Some("--addressing") => addressing = named(arguments.next())?,
            Some(other) if other.starts_with("--") => {
                let there = "there is --json, --addressing and --help";
                return Err(format!("{other} is no option; {there}"));
            }
            _ => files.push(PathBuf::from(argument)),
        }
    }
    if files.len() > 2 {
        return Err(format!("two files are the most, {} are named", files.len()));
    }
    let mut files = files.into_iter();
    let Some(input) = files.next() else {
        return Err("no INPUT is named; try --help".to_string());
    };
    let output = files.next();
    Ok(Arguments::Files {
        input,
        output,
        json,
        addressing,
    })
}

/// The addressing that an argument names.
fn named(argument: Option<OsString>) -> Result<Addressing, String> {
    match argument.as_deref().and_then(|name| name.to_str()) {
        Some("bins") => Ok(Addressing::Bins),
        Some("ranges") => Ok(Addressing::Ranges),
        _ => Err("behind --addressing stands bins or ranges".to_string()),
    }
}
