//! What the command line asks for.

use std::ops::Range;
use std::path::PathBuf;
use std::time::Duration;

pub const USAGE: &str = "\
usage: compare [REPLAY] [OPTION]...
  REPLAY            the replay program to be tried; if it is not given, the
                    environment variable REPLAY names it
  --seeds FROM..TO  compare on the random traces of these seeds too
  --random COUNT    the same for so many seeds from a random one on
  --threads COUNT   run so many programs at once (2)
  --traces DIR      where the named traces are (tests/traces)
  --kept DIR        where the trace of a difference is put (target/compare)
  --seconds COUNT   how long the program may take for a trace (60)
The status is 0 if all answers are the same, 1 if not, 2 if that is not known.";

/// Seeds of random traces.
pub enum Seeds {
    Range(Range<u64>),
    Random(u64),
}

pub struct Arguments {
    pub program: PathBuf,
    pub seeds: Option<Seeds>,
    pub threads: usize,
    pub traces: PathBuf,
    pub kept: PathBuf,
    pub limit: Duration,
}

impl Arguments {
    /// None if they are not as the usage says.
    pub fn read(mut given: impl Iterator<Item = String>) -> Option<Self> {
        let mut arguments = Arguments {
            program: std::env::var_os("REPLAY").unwrap_or_default().into(),
            seeds: None,
            threads: 2,
            traces: "tests/traces".into(),
            kept: "target/compare".into(),
            limit: Duration::from_secs(60),
        };
        while let Some(argument) = given.next() {
            if argument.starts_with("--") {
                arguments.set(&argument, &given.next()?)?;
            } else {
                arguments.program = argument.into();
            }
        }
        let complete = !arguments.program.as_os_str().is_empty() && arguments.threads > 0;
        complete.then_some(arguments)
    }

    fn set(&mut self, option: &str, value: &str) -> Option<()> {
        match option {
            "--seeds" => {
                let (from, to) = value.split_once("..")?;
                let range = from.parse().ok()?..to.parse().ok()?;
                self.seeds = Some(Seeds::Range(range));
            }
            "--random" => self.seeds = Some(Seeds::Random(value.parse().ok()?)),
            "--threads" => self.threads = value.parse().ok()?,
            "--traces" => self.traces = value.into(),
            "--kept" => self.kept = value.into(),
            "--seconds" => self.limit = Duration::from_secs(value.parse().ok()?),
            _ => return None,
        }
        Some(())
    }
}
