//! How fast the proved SHA-256 is on chunks and on nodes, beside `second` and,
//! where the machine has it, libcrypto restricted to scalar code.
//!
//! One process gives each job to all in turn, for some seconds, and the best time
//! of each counts. The table is printed; no number decides anything.

#![deny(unsafe_code)]

#[allow(unsafe_code)]
mod libcrypto;

use crate::libcrypto::Libcrypto;
use harness::bench::{measure, timed, Job, Unit, NAMES};
use harness::proved::{self, Words};
use harness::words::words as words_of;
use second::sha256::{node, sha256, Digest};
use std::hint::black_box;
use std::time::Duration;

/// The bytes of a chunk, and the chunks of a batch.
const CHUNK: usize = 1024;
const CHUNKS: usize = 40;

/// The nodes of a batch: as many compressions, about, as its chunks take.
const NODES: usize = 320;

/// How long it takes.
const RUN: Duration = Duration::from_secs(6);

/// What is hashed: chunks, and two hashes in hand for each node, in the form that
/// each contender takes.
struct Inputs {
    chunks: Vec<u8>,
    digests: Vec<[Digest; 2]>,
    words: Vec<[Words; 2]>,
}

impl Inputs {
    fn new() -> Self {
        let digests: Vec<[Digest; 2]> = (0..NODES as u32)
            .map(|i| [i, !i].map(|seed| sha256(&seed.to_be_bytes())))
            .collect();
        Inputs {
            chunks: (0..CHUNKS * CHUNK).map(|i| (i % 251) as u8).collect(),
            words: digests
                .iter()
                .map(|pair| pair.each_ref().map(words_of))
                .collect(),
            digests,
        }
    }

    fn chunks(&self) -> impl Iterator<Item = &[u8]> {
        self.chunks.chunks_exact(CHUNK)
    }

    /// The two hashes of each node, one behind the other.
    fn blocks(&self) -> impl Iterator<Item = &[u8]> {
        self.digests.iter().map(|pair| pair.as_flattened())
    }
}

fn main() {
    let libcrypto = Libcrypto::open();
    let inputs = Inputs::new();
    check(&inputs, libcrypto.as_ref());
    let mut chunks = Job::new(
        "chunks of 1,024 bytes",
        Unit::Megabytes(CHUNKS * CHUNK),
        || each(inputs.chunks(), proved::sha256),
        || each(inputs.chunks(), sha256),
    );
    let mut nodes = Job::new(
        "a node of two hashes",
        Unit::Nanoseconds(NODES),
        || each(&inputs.words, |[left, right]| proved::parent(left, right)),
        || each(&inputs.digests, |[left, right]| node(left, right)),
    );
    let mut names = NAMES.to_vec();
    if let Some(libcrypto) = &libcrypto {
        names.push("libcrypto");
        chunks = chunks.beside(|| each(inputs.chunks(), |chunk| libcrypto.sha256(chunk)));
        nodes = nodes.beside(|| each(inputs.blocks(), |block| libcrypto.sha256(block)));
    }
    let caption = match &libcrypto {
        Some(libcrypto) => format!("SHA-256, with {} held to its scalar code", libcrypto.name),
        None => "SHA-256, without libcrypto, which is not on this machine".to_string(),
    };
    measure(&caption, &names, vec![chunks, nodes], RUN);
}

/// All give the same digests, or their times say nothing.
fn check(inputs: &Inputs, libcrypto: Option<&Libcrypto>) {
    for chunk in inputs.chunks() {
        let wanted = sha256(chunk);
        assert_eq!(proved::sha256(chunk), wanted, "proved, a chunk");
        if let Some(libcrypto) = libcrypto {
            assert_eq!(libcrypto.sha256(chunk), wanted, "libcrypto, a chunk");
        }
    }
    for (i, block) in inputs.blocks().enumerate() {
        let [left, right] = &inputs.digests[i];
        let wanted = node(left, right);
        let got = proved::parent(&inputs.words[i][0], &inputs.words[i][1]);
        assert_eq!(got, words_of(&wanted), "proved, a node");
        if let Some(libcrypto) = libcrypto {
            assert_eq!(libcrypto.sha256(block), wanted, "libcrypto, a node");
        }
    }
}

/// The time of the hash over each input, keeping the compiler from knowing the
/// input and from leaving out the hash.
#[inline(always)]
fn each<I: IntoIterator, H>(inputs: I, hash: impl Fn(I::Item) -> H) -> Duration {
    timed(|| {
        for input in inputs {
            black_box(hash(black_box(input)));
        }
    })
}
