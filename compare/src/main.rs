//! The command line of the comparison.

#![forbid(unsafe_code)]

mod arguments;

use arguments::{Arguments, Seeds};
use compare::program::Program;
use compare::seeds::{Failure, Outcome};
use compare::tally::Tally;
use compare::{named, seeds};
use std::io;
use std::ops::Range;
use std::path::Path;
use std::process::ExitCode;
use std::time::{Instant, SystemTime, UNIX_EPOCH};

/// The longest trace that is printed.
const PRINTED: usize = 6_000;

fn main() -> ExitCode {
    let Some(arguments) = Arguments::read(std::env::args().skip(1)) else {
        eprintln!("{}", arguments::USAGE);
        return ExitCode::from(2);
    };
    match run(&arguments) {
        Ok(true) => ExitCode::SUCCESS,
        Ok(false) => ExitCode::FAILURE,
        Err(error) => {
            eprintln!("compare: {error}");
            ExitCode::from(2)
        }
    }
}

/// Whether both programs agree on all.
fn run(arguments: &Arguments) -> io::Result<bool> {
    let program = Program::new(arguments.program.clone(), arguments.limit);
    let began = Instant::now();
    let mut tally = Tally::default();
    let mut same = compare_named(&program, &arguments.traces, &mut tally)?;
    if let (true, Some(seeds)) = (same, &arguments.seeds) {
        let seeds = range(seeds);
        let Outcome {
            tally: more,
            failure,
        } = seeds::compare(&program, seeds, arguments.threads)?;
        tally.add(&more);
        same = failure.is_none();
        if let Some(failure) = failure {
            report(&failure, &arguments.kept)?;
        }
    }
    println!("{tally}");
    println!("{:.1} s", began.elapsed().as_secs_f64());
    println!("{}", if same { "no difference" } else { "DIFFERENT" });
    Ok(same)
}

/// Compares on the named traces, and tells each difference.
fn compare_named(program: &Program, directory: &Path, tally: &mut Tally) -> io::Result<bool> {
    let all = named::read(directory)?;
    println!("{} named traces", all.len());
    let failures = named::compare(program, &all, tally)?;
    for failure in &failures {
        let named::Failure {
            name,
            whose,
            difference,
        } = failure;
        println!("{name}: {whose:?}: {difference}");
    }
    Ok(failures.is_empty())
}

/// The seeds; random ones are told, so that they can be tried again.
fn range(seeds: &Seeds) -> Range<u64> {
    match seeds {
        Seeds::Range(range) => range.clone(),
        Seeds::Random(count) => {
            let now = SystemTime::now().duration_since(UNIX_EPOCH);
            let nanoseconds = now.map_or(0, |now| now.as_nanos() as u64);
            // Far from overflow, and from the seeds that one would choose.
            let first = nanoseconds.wrapping_mul(0x9e37_79b9_7f4a_7c15) >> 1;
            println!("seeds {first}..{}", first + count);
            first..first + count
        }
    }
}

/// Keeps the trace of a difference in a file, and tells both.
fn report(failure: &Failure, directory: &Path) -> io::Result<()> {
    let Failure {
        seed,
        input,
        difference,
    } = failure;
    std::fs::create_dir_all(directory)?;
    let file = directory.join(format!("seed-{seed}.hex"));
    std::fs::write(&file, input)?;
    println!("seed {seed}: {difference}");
    println!("the trace is in {}", file.display());
    if input.len() <= PRINTED {
        println!("{}", input.escape_ascii().to_string().replace("\\n", "\n"));
    }
    Ok(())
}
