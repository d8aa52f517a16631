//! The replay program of `second` as an executable of its own, for trying the
//! comparison with it.

#![forbid(unsafe_code)]

use std::io::{self, BufWriter, Write};

fn main() -> io::Result<()> {
    let mut output = BufWriter::new(io::stdout().lock());
    second::replay::replay(io::stdin().lock(), &mut output)?;
    output.flush()
}
