//! Runs of `explain`, and traces for them.

use ppspp::{Addressing, Order, Store};
use second::hex;
use second::packets::{bins, fixed, handshake, to};
use std::ffi::OsStr;
use std::path::{Path, PathBuf};
use std::process::Command;
use std::sync::atomic::{AtomicUsize, Ordering};

/// FIPS 180-4's example: the hash of `abc`, so the root of a pack of these three bytes.
pub const ABC: &str = "ba7816bf8f01cfea414140de5dae2223b00361a396177a9cb410ff61f20015ad";

/// The peer's channel in these tests; ours for it is 1.
pub const PEER: u32 = 17;

/// What a run wrote, and its status.
pub struct Ran {
    pub status: Option<i32>,
    pub text: String,
    pub errors: String,
}

/// Runs the program.
pub fn run<A: AsRef<OsStr>>(arguments: &[A]) -> Ran {
    let output = Command::new(env!("CARGO_BIN_EXE_explain"))
        .args(arguments)
        .output()
        .expect("it can be run");
    let text = |bytes| String::from_utf8(bytes).expect("it writes UTF-8");
    Ran {
        status: output.status.code(),
        text: text(output.stdout),
        errors: text(output.stderr),
    }
}

/// A file with these bytes, which no other test has, as long as it is kept.
pub struct File {
    path: PathBuf,
}

impl File {
    /// Writes the file.
    pub fn new(bytes: impl AsRef<[u8]>) -> File {
        static FILES: AtomicUsize = AtomicUsize::new(0);
        let number = FILES.fetch_add(1, Ordering::Relaxed);
        let name = format!("explain-{}-{number}", std::process::id());
        let path = Path::new(env!("CARGO_TARGET_TMPDIR")).join(name);
        std::fs::write(&path, bytes).expect("it can be written");
        File { path }
    }
}

impl AsRef<OsStr> for File {
    fn as_ref(&self) -> &OsStr {
        self.path.as_os_str()
    }
}

impl Drop for File {
    fn drop(&mut self) {
        // It is of no more use, and does no harm if it stays.
        let _ = std::fs::remove_file(&self.path);
    }
}

/// The directory of the named traces.
pub fn traces() -> PathBuf {
    Path::new(env!("CARGO_MANIFEST_DIR")).join("../tests/traces")
}

/// An input that is being written.
#[derive(Clone)]
pub struct Trace {
    pub lines: Vec<String>,
    /// Whether its datagrams name chunks by bins.
    bins: bool,
}

impl Trace {
    /// Line one: a root, in digits, and a length.
    pub fn new(root: &str, length: u32) -> Trace {
        Trace {
            lines: vec![format!("{root}{length:08x}")],
            bins: false,
        }
    }

    /// The same under bins.
    pub fn under_bins(root: &str, length: u32) -> Trace {
        let ranges = Trace::new(root, length);
        Trace {
            bins: true,
            ..ranges
        }
    }

    /// The pack `abc`, with a channel open to the peer.
    pub fn abc() -> Trace {
        Trace::new(ABC, 3).opened(PEER)
    }

    /// A pack of seven chunks under a root of zeros, to which none belongs, with a channel open to the peer.
    pub fn seven() -> Trace {
        Trace::new(&"00".repeat(32), 7_162).opened(PEER)
    }

    /// With any line.
    pub fn line(mut self, line: &str) -> Trace {
        self.lines.push(line.to_string());
        self
    }

    /// With a datagram at clock 0.
    pub fn datagram(self, datagram: &[u8]) -> Trace {
        let digits = hex::encode(datagram);
        self.line(&format!("{:016x}{digits}", 0))
    }

    /// With messages to channel 1 at clock 0.
    pub fn take(self, messages: &[&[u8]]) -> Trace {
        self.datagram(&to(1, messages))
    }

    /// With the order's HANDSHAKE to channel 0.
    pub fn opened(self, source: u32) -> Trace {
        let mut root = Vec::new();
        hex::decode(&self.lines[0].as_bytes()[..64], &mut root).expect("digits");
        let root = root.try_into().expect("32 bytes");
        let options = if self.bins {
            bins::fixed(&root)
        } else {
            fixed(&root)
        };
        let opening = handshake(source, &options);
        self.datagram(&to(0, &[&opening]))
    }

    /// The bytes of the input.
    pub fn input(&self) -> Vec<u8> {
        (self.lines.join("\n") + "\n").into_bytes()
    }

    /// A run on it, with further arguments.
    pub fn run(&self, more: &[&OsStr]) -> Ran {
        let input = File::new(self.input());
        let mut arguments: Vec<&OsStr> = vec![input.as_ref()];
        if self.bins {
            arguments.extend(["--addressing", "bins"].map(OsStr::new));
        }
        arguments.extend(more);
        run(&arguments)
    }

    /// What is told of the last line, as this library answers it: its rows, put together where they were broken.
    pub fn last(&self) -> Vec<String> {
        let ran = self.run(&[]);
        assert_eq!((ran.status, &ran.errors[..]), (Some(0), ""), "{}", ran.text);
        let start = format!("line {} ", self.lines.len());
        let parts = ran.text.split("\n\n");
        let mut told = parts.filter(|part| part.starts_with(&start));
        rows(told.next().expect("the line is told"))
    }
}

/// A whole store of a pack, with a channel open to channel 1 of a trace.
pub struct Server {
    store: Store,
}

impl Server {
    /// One with the pack of a length.
    pub fn new(addressing: Addressing, length: u32) -> Server {
        let content: Vec<u8> = (0..=250).cycle().take(length as usize).collect();
        let order = Order::to_build(length).addressing(addressing);
        let mut store = Store::build(order, &content).expect("a pack's length");
        let calling = store.open(PEER).expect("a free row").to_vec();
        // A HANDSHAKE to the server's channel from channel 1: what the server sent, from there.
        let answering = [&calling[5..9], &[0, 0, 0, 0, 1], &calling[9..]].concat();
        store.take(0, 0, &answering).expect("it opens");
        Server { store }
    }

    /// A trace under its order, with a channel open to it.
    pub fn trace(&self) -> Trace {
        let order = self.store.order().expect("it was built");
        let root = hex::encode(&order.root);
        let trace = match order.known_addressing() {
            Some(Addressing::Bins) => Trace::under_bins(&root, order.length),
            _ => Trace::new(&root, order.length),
        };
        trace.opened(PEER)
    }

    /// The datagram of a chunk.
    pub fn written(&mut self, chunk: u32) -> Vec<u8> {
        let datagram = self.store.write(PEER, chunk, 0);
        datagram.expect("a chunk of the pack").to_vec()
    }
}

/// The rows of a text, each put together where it was broken.
pub fn rows(text: &str) -> Vec<String> {
    let mut rows: Vec<String> = Vec::new();
    for row in text.lines() {
        match (row.strip_prefix("          "), rows.last_mut()) {
            (Some(more), Some(last)) => *last += &format!(" {more}"),
            _ => rows.push(row.to_string()),
        }
    }
    rows
}

/// Asserts what is told of a trace's last line: its answer and its reason.
pub fn refused(trace: &Trace, answer: &str, reason: &str) {
    let rows = trace.last();
    let answer = format!("answer    {answer} ");
    assert!(rows.iter().any(|row| row.starts_with(&answer)), "{rows:#?}");
    let reason = format!("reason    {reason}");
    assert!(rows.contains(&reason), "{reason}\n{rows:#?}");
}
