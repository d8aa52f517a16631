//! How fast the proved replay program is, beside `second`'s: lines that are
//! refused at layout, and lines whose chunks are taken. Both are processes of
//! their own that read a file and write to nowhere, so that they are measured as
//! they are used, and the start of a process counts too.
//!
//! They get each input in turn, for some seconds, and the best time of each
//! counts. The table is printed; no number decides anything.

use harness::bench::{self, timed, Job, Unit, NAMES};
use second::bulk::{self, Kind};
use std::fs::File;
use std::io::{self, BufWriter};
use std::path::{Path, PathBuf};
use std::process::{Command, ExitCode, Stdio};
use std::time::Duration;

/// The bytes of an input, at least.
const BYTES: usize = 100_000_000;

/// How long it takes.
const RUN: Duration = Duration::from_secs(20);

const USAGE: &str = "usage: replay_bench REPLAY SECOND DIRECTORY
  REPLAY     the proved replay program
  SECOND     the second program
  DIRECTORY  where the inputs are put";

fn main() -> ExitCode {
    let arguments: Vec<PathBuf> = std::env::args_os().skip(1).map(PathBuf::from).collect();
    let [replay, second, directory] = &arguments[..] else {
        eprintln!("{USAGE}");
        return ExitCode::from(2);
    };
    match measure(replay, second, directory) {
        Ok(()) => ExitCode::SUCCESS,
        Err(error) => {
            eprintln!("replay_bench: {error}");
            ExitCode::FAILURE
        }
    }
}

fn measure(replay: &Path, second: &Path, directory: &Path) -> io::Result<()> {
    let job = |what: &str, kind: Kind, file: &str| {
        let file = input(kind, directory.join(file))?;
        let same = file.clone();
        io::Result::Ok(Job::new(
            what,
            Unit::Megabytes(BYTES),
            move || time(Command::new(replay), &file),
            move || time(with_argument(second), &same),
        ))
    };
    let jobs = vec![
        job(
            "lines of 4,112 digits, refused at layout",
            Kind::Layout,
            "layout.hex",
        )?,
        job("lines whose chunks are taken", Kind::Taken, "taken.hex")?,
    ];
    let caption = "The replay programs, processes of their own, on files of 100 MB";
    bench::measure(caption, &NAMES, jobs, RUN);
    Ok(())
}

/// Writes an input to a file, and gives its path.
fn input(kind: Kind, file: PathBuf) -> io::Result<PathBuf> {
    bulk::write(kind, BYTES as u64, BufWriter::new(File::create(&file)?))?;
    Ok(file)
}

/// `second` has several commands.
fn with_argument(second: &Path) -> Command {
    let mut command = Command::new(second);
    command.arg("replay");
    command
}

/// How long a program takes for the file.
fn time(mut command: Command, file: &Path) -> Duration {
    let input = File::open(file).expect("the input was written");
    command.stdin(input).stdout(Stdio::null());
    let mut status = None;
    let time = timed(|| status = command.status().ok());
    assert!(
        status.is_some_and(|status| status.success()),
        "{command:?} cannot be run, or fails"
    );
    time
}
