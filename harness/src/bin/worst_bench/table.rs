//! The worst datagram of every answer, as a table.

use crate::candidate::{Candidate, Run};
use crate::scenes::{addressing, hashed};
use crate::search::{bar, per_copy, Class, Found, Search};
use crate::told::told;
use harness::bench::{self, figure};
use second::wire::Addressing;
use std::time::{Duration, Instant};

/// How long the worst ones are measured again.
const RUN: Duration = Duration::from_secs(4);

/// The columns behind the first.
const NAMES: [&str; 8] = [
    "the worst found",
    "bytes",
    "ns",
    "ns a byte",
    "of hashing as many bytes",
    "of the bar",
    "of a core, at 1 Gbit/s",
    "second, ns",
];

/// The bytes that IPv4 and UDP put before a datagram, and the nanoseconds in which
/// a byte comes at 1 Gbit/s.
const HEADERS: usize = 28;
const BYTE: f64 = 8.0;

/// The best times of a datagram, in nanoseconds.
struct Measured {
    class: Class,
    candidate: Candidate,
    proved: f64,
    hashing: f64,
    second: f64,
}

impl Measured {
    fn new(class: Class, candidate: Candidate) -> Self {
        Measured {
            class,
            candidate,
            proved: f64::MAX,
            hashing: f64::MAX,
            second: f64::MAX,
        }
    }

    /// The part of the bar that it takes.
    fn part(&self) -> f64 {
        self.proved / bar(self.hashing)
    }

    /// One run of each, on datagrams that it has not seen.
    fn run(&mut self, search: &mut Search) {
        let Candidate { scene, id, .. } = self.candidate;
        let stage = &mut search.stages[scene as usize];
        let mut run = Run::of(&self.candidate);
        run.mix(&mut search.random);
        self.proved = self.proved.min(per_copy(stage.proved(id, &run.datagrams)));
        self.hashing = self.hashing.min(per_copy(hashed(&run.datagrams)));
        run.mix(&mut search.random);
        self.second = self.second.min(per_copy(stage.second(id, &run.datagrams)));
    }

    fn cells(&self) -> Vec<String> {
        let size = self.candidate.datagram.len();
        let a_byte = match size {
            0 => "-".to_string(),
            _ => figure(self.proved / size as f64),
        };
        vec![
            name(self.class),
            told(&self.candidate),
            size.to_string(),
            figure(self.proved),
            a_byte,
            format!("{:.3}", self.proved / self.hashing),
            format!("{:.3}", self.part()),
            format!("{:.3}", self.proved / (BYTE * (HEADERS + size) as f64)),
            figure(self.second),
        ]
    }
}

/// Measures all that were kept again, in turn, and prints the worst of each
/// answer.
pub fn print(mut search: Search) {
    let kept = std::mem::take(&mut search.worst).into_iter();
    let mut all: Vec<Measured> = kept
        .flat_map(|(class, found)| found.into_iter().map(move |found| (class, found)))
        .map(|(class, Found { candidate, .. })| Measured::new(class, candidate))
        .collect();
    let start = Instant::now();
    while start.elapsed() < RUN {
        for measured in &mut all {
            measured.run(&mut search);
        }
    }
    all.sort_by(|one, other| {
        let by_part = other.part().total_cmp(&one.part());
        one.class.cmp(&other.class).then(by_part)
    });
    all.dedup_by_key(|measured| measured.class);
    let caption = format!(
        "The datagrams that cost the most for their bytes, of {} tried on a store of 512 chunks{}; \
         the bar is twice hashing as many bytes, and 100 ns",
        search.tried,
        match addressing() {
            Addressing::Bins => " under bins",
            Addressing::Ranges => "",
        }
    );
    let names = NAMES.map(str::to_string);
    bench::print(&caption, &names, all.iter().map(Measured::cells));
}

/// The name of an answer.
fn name(class: Class) -> String {
    match class {
        Class::Refused(number) => format!("refused with {number}"),
        Class::Plain => "taken, without DATA".to_string(),
        Class::Stored => "taken, with DATA".to_string(),
        Class::ShortRefused => "refused with 10, a last chunk of one byte".to_string(),
        Class::ShortStored => "taken, a last chunk of one byte".to_string(),
    }
}
