//! The replay program that is tried, and the one it is compared with.

use second::replay::replay;
use std::io::{self, ErrorKind, Read, Write};
use std::path::PathBuf;
use std::process::{Child, ChildStdin, Command, ExitStatus, Stdio};
use std::sync::mpsc::{self, RecvTimeoutError};
use std::thread;
use std::time::Duration;

/// An executable that answers its standard input on its standard output.
pub struct Program {
    path: PathBuf,
    /// How long it may run for one input.
    limit: Duration,
}

/// What a program did with an input.
pub enum Run {
    /// It ended.
    Ended {
        /// What it wrote.
        output: Vec<u8>,
        /// How it ended.
        status: ExitStatus,
    },
    /// It had not closed its output when the time was over.
    OverTime,
}

impl Program {
    pub fn new(path: PathBuf, limit: Duration) -> Self {
        Program { path, limit }
    }

    /// Runs it on an input, which is fed in pieces of at most so many bytes.
    pub fn run(&self, input: &[u8], piece: usize) -> io::Result<Run> {
        let mut child = Command::new(&self.path)
            .stdin(Stdio::piped())
            .stdout(Stdio::piped())
            .spawn()?;
        thread::scope(|scope| {
            let pipe = child.stdin.take();
            // The input goes in while the output comes out, so that no pipe can
            // fill and stop both.
            let feeding = scope.spawn(move || feed(pipe, input, piece));
            let run = self.wait(&mut child);
            let fed = feeding.join().expect("feeding does not panic");
            let run = run?;
            fed.map(|()| run)
        })
    }

    /// Waits for the end of the output, then of the program.
    fn wait(&self, child: &mut Child) -> io::Result<Run> {
        let mut pipe = child.stdout.take().expect("the output is a pipe");
        let (sender, receiver) = mpsc::channel();
        thread::spawn(move || {
            let mut output = Vec::new();
            let read = pipe.read_to_end(&mut output).map(|_| output);
            // The receiver may have given up.
            let _ = sender.send(read);
        });
        match receiver.recv_timeout(self.limit) {
            Ok(output) => Ok(Run::Ended {
                output: output?,
                status: child.wait()?,
            }),
            Err(RecvTimeoutError::Timeout | RecvTimeoutError::Disconnected) => {
                child.kill()?;
                child.wait()?;
                Ok(Run::OverTime)
            }
        }
    }
}

/// Writes the input to the program. It need not read all: a bad first line is
/// the last it looks at.
fn feed(pipe: Option<ChildStdin>, input: &[u8], piece: usize) -> io::Result<()> {
    let mut pipe = pipe.expect("the input is a pipe");
    for piece in input.chunks(piece) {
        match pipe.write_all(piece) {
            Err(error) if error.kind() == ErrorKind::BrokenPipe => return Ok(()),
            other => other?,
        }
    }
    Ok(())
}

/// What `second` answers.
pub fn second(input: &[u8]) -> Vec<u8> {
    let mut output = Vec::new();
    replay(input, &mut output).expect("memory can be read and written");
    output
}
