//! The named traces: inputs for the replay program, each to show one thing, and
//! what is wanted for them.
//!
//! The number and the reply that a line is to get stand beside the line where it
//! is made, worked out by hand from 01, from 02's No. 2 and from the list of traps,
//! whose numbers the comments give. So nothing wanted here comes from a program.

mod channels;
mod chunks;
mod ends;
mod handshakes;
mod hashes;
mod layouts;
mod lines;
mod options;
mod orders;
mod ranges;
mod runs;
mod script;
#[cfg(test)]
mod tests;
mod values;

use std::io;
use std::path::Path;

/// A trace and what is wanted for it.
pub struct Named {
    /// The name of its files.
    pub name: &'static str,
    /// What it shows.
    pub shows: &'static str,
    /// 01's words that decide, or 02's.
    pub words: &'static str,
    /// The input.
    pub input: Vec<u8>,
    /// The output.
    pub wanted: Vec<u8>,
}

/// All named traces.
pub fn all() -> Vec<Named> {
    let parts = [
        values::traces(),
        orders::traces(),
        ends::traces(),
        lines::traces(),
        layouts::traces(),
        handshakes::traces(),
        options::traces(),
        channels::traces(),
        ranges::traces(),
        chunks::traces(),
        hashes::traces(),
        runs::traces(),
    ];
    parts.into_iter().flatten().collect()
}

/// Writes the inputs to a directory, each to `NAME.hex`.
pub fn write_inputs(directory: &Path) -> io::Result<()> {
    for named in all() {
        let file = directory.join(named.name).with_extension("hex");
        std::fs::write(file, named.input)?;
    }
    Ok(())
}

/// A line about each trace, for a table.
pub fn table() -> String {
    let row = |named: &Named| {
        let Named {
            name, shows, words, ..
        } = named;
        format!("| {name} | {shows} | {words} |\n")
    };
    all().iter().map(row).collect()
}
