//! The command line of the second program.

#![forbid(unsafe_code)]

use second::sha256::Sha256;
use second::{bulk, hex, named_traces, replay, traces, vectors};
use std::io::{self, BufReader, BufWriter, ErrorKind, Read, Write};
use std::process::ExitCode;

const USAGE: &str = "\
usage: second COMMAND
  sha256-vectors   print the label and the digest of each test vector
  sha256           print the digest of standard input
  replay           answer the order and the datagrams in standard input
  trace SEED       print a random input for replay, the same for a seed
  trace-bulk KIND MEGABYTES
                   print an input of at least so many million bytes; of KIND
                   layout, every datagram has 2,048 bytes and is refused with 2
                   at its end; of KIND taken, every one has a chunk and is taken
  named-traces DIR
                   write the inputs of the named traces there, each to NAME.hex,
                   and print a line about each";

fn main() -> ExitCode {
    let arguments: Vec<_> = std::env::args().skip(1).collect();
    let arguments: Vec<_> = arguments.iter().map(String::as_str).collect();
    let outcome = match arguments[..] {
        ["sha256-vectors"] => sha256_vectors(),
        ["sha256"] => sha256_of_input(),
        ["replay"] => replay_input(),
        ["trace", seed] => trace(seed),
        ["trace-bulk", kind, megabytes] => trace_bulk(kind, megabytes),
        ["named-traces", directory] => named_traces(directory),
        _ => {
            eprintln!("{USAGE}");
            return ExitCode::from(2);
        }
    };
    match outcome {
        Ok(()) => ExitCode::SUCCESS,
        Err(error) => {
            eprintln!("second: {error}");
            ExitCode::FAILURE
        }
    }
}

fn sha256_vectors() -> io::Result<()> {
    let mut output = io::stdout().lock();
    for (label, digest) in vectors::sha256_vectors() {
        writeln!(output, "{label} {}", hex::encode(&digest))?;
    }
    output.flush()
}

fn sha256_of_input() -> io::Result<()> {
    let mut input = io::stdin().lock();
    let mut buffer = [0; 1 << 16];
    let mut hash = Sha256::new();
    loop {
        match input.read(&mut buffer) {
            Ok(0) => break,
            Ok(count) => hash.update(&buffer[..count]),
            Err(error) if error.kind() == ErrorKind::Interrupted => {}
            Err(error) => return Err(error),
        }
    }
    let mut output = io::stdout().lock();
    writeln!(output, "{}", hex::encode(&hash.finish()))?;
    output.flush()
}

fn replay_input() -> io::Result<()> {
    let input = BufReader::with_capacity(1 << 16, io::stdin().lock());
    let mut output = BufWriter::new(io::stdout().lock());
    replay::replay(input, &mut output)?;
    output.flush()
}

fn trace(seed: &str) -> io::Result<()> {
    let trace = traces::generate(number(seed)?);
    let mut output = io::stdout().lock();
    output.write_all(&trace)?;
    output.flush()
}

fn trace_bulk(kind: &str, megabytes: &str) -> io::Result<()> {
    let kind = bulk::Kind::named(kind)
        .ok_or_else(|| io::Error::other(format!("{kind}: neither layout nor taken")))?;
    let bytes = number(megabytes)?.saturating_mul(1_000_000);
    bulk::write(kind, bytes, BufWriter::new(io::stdout().lock()))
}

fn named_traces(directory: &str) -> io::Result<()> {
    named_traces::write_inputs(directory.as_ref())?;
    io::stdout()
        .lock()
        .write_all(named_traces::table().as_bytes())
}

/// The number that an argument stands for.
fn number(argument: &str) -> io::Result<u64> {
    let number = argument.parse();
    number.map_err(|_| io::Error::other(format!("{argument}: not a number")))
}
