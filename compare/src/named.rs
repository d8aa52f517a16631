//! The named traces: `NAME.hex` with the wanted output in `NAME.out`.

use crate::difference::{find, find_in_output, Difference};
use crate::program::{second, Program};
use crate::tally::Tally;
use std::io;
use std::path::{Path, PathBuf};

/// A trace with its wanted output.
pub struct Named {
    pub name: String,
    pub input: Vec<u8>,
    pub wanted: Vec<u8>,
}

/// Which program a difference is of.
#[derive(Debug, PartialEq, Eq)]
pub enum Whose {
    Program,
    Second,
}

/// A named trace that a program answers in another way.
#[derive(Debug)]
pub struct Failure {
    pub name: String,
    pub whose: Whose,
    pub difference: Difference,
}

/// The traces of a directory, by name. A file without its other half is an error,
/// and so is a directory without any.
pub fn read(directory: &Path) -> io::Result<Vec<Named>> {
    let mut names = Vec::new();
    for entry in std::fs::read_dir(directory)? {
        let path = entry?.path();
        let ending = path.extension().and_then(|ending| ending.to_str());
        if matches!(ending, Some("hex" | "out")) {
            names.push(path.with_extension(""));
        }
    }
    names.sort();
    names.dedup();
    if names.is_empty() {
        let text = format!("{}: no trace there", directory.display());
        return Err(io::Error::other(text));
    }
    names.iter().map(|name| read_one(name)).collect()
}

fn read_one(path: &Path) -> io::Result<Named> {
    let name = path.file_name().unwrap_or_default();
    Ok(Named {
        name: name.to_string_lossy().into_owned(),
        input: read_file(path.with_extension("hex"))?,
        wanted: read_file(path.with_extension("out"))?,
    })
}

fn read_file(path: PathBuf) -> io::Result<Vec<u8>> {
    let read = std::fs::read(&path);
    read.map_err(|error| io::Error::other(format!("{}: {error}", path.display())))
}

/// Runs both programs on each trace; the one tried is fed whole, then in small
/// pieces.
pub fn compare(program: &Program, all: &[Named], tally: &mut Tally) -> io::Result<Vec<Failure>> {
    let mut failures = Vec::new();
    for Named {
        name,
        input,
        wanted,
    } in all
    {
        let mut fail = |whose, difference: Option<Difference>| {
            failures.extend(difference.map(|difference| Failure {
                name: name.clone(),
                whose,
                difference,
            }));
        };
        let by_second = find_in_output(input, wanted, &second(input));
        fail(Whose::Second, by_second);
        for piece in [input.len().max(1), 61] {
            let run = program.run(input, piece)?;
            fail(Whose::Program, find(input, wanted, &run));
        }
        tally.count(wanted);
    }
    Ok(failures)
}
