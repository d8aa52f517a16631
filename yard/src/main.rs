//! Runs a yard and tells how it went.

use std::io::Write;
use std::process::ExitCode;
use std::time::Instant;
use yard::arguments::{self, Asked};
use yard::run::Yard;
use yard::{plot, summary};

fn main() -> ExitCode {
    let arguments: Vec<String> = std::env::args().skip(1).collect();
    let (settings, file) = match arguments::parse(&arguments) {
        Ok(Asked::Run(settings, file)) => (settings, file),
        Ok(Asked::Help) => return write_out(arguments::HELP, true),
        Err(sentence) => {
            eprintln!("{sentence}");
            return ExitCode::from(2);
        }
    };
    let begun = Instant::now();
    let mut yard = Yard::new(&settings);
    yard.run();
    let text = summary::summary(&settings, &yard, begun.elapsed());
    let status = write_out(&text, summary::is_good(&yard));
    if let Some(file) = file {
        if let Err(error) = std::fs::write(&file, plot::plot(&settings, &yard)) {
            eprintln!("The plot {} cannot be written: {error}.", file.display());
            return ExitCode::from(2);
        }
    }
    status
}

/// Writes a text; the status is 1 if the text cannot be written, or if all is not good.
fn write_out(text: &str, good: bool) -> ExitCode {
    let written = std::io::stdout().write_all(text.as_bytes());
    match good && written.is_ok() {
        true => ExitCode::SUCCESS,
        false => ExitCode::FAILURE,
    }
}
