//! What the benchmarks share: jobs that several programs do in turn, and tables
//! of their best times in Markdown.

use std::time::{Duration, Instant};

/// The contenders of most tables.
pub const NAMES: [&str; 2] = ["proved", "second"];

/// How a time is told.
#[derive(Clone, Copy)]
pub enum Unit {
    /// The microseconds of a run, divided by so many pieces of work.
    Microseconds(usize),
    /// The same in nanoseconds.
    Nanoseconds(usize),
    /// The speed of a run over so many bytes, in 10^6 bytes a second.
    Megabytes(usize),
}

impl Unit {
    fn name(self) -> &'static str {
        match self {
            Unit::Microseconds(_) => "µs",
            Unit::Nanoseconds(_) => "ns",
            Unit::Megabytes(_) => "MB/s",
        }
    }

    fn value(self, time: Duration) -> f64 {
        let seconds = time.as_secs_f64();
        match self {
            Unit::Microseconds(pieces) => seconds * 1e6 / pieces as f64,
            Unit::Nanoseconds(pieces) => seconds * 1e9 / pieces as f64,
            Unit::Megabytes(bytes) => bytes as f64 / seconds / 1e6,
        }
    }
}

/// One who does a job: each run gives the time that it took.
struct Contender<'a> {
    run: Box<dyn Fn() -> Duration + 'a>,
    best: Duration,
}

/// Work for the proved code, for `second` and perhaps for others.
pub struct Job<'a> {
    name: String,
    unit: Unit,
    contenders: Vec<Contender<'a>>,
}

impl<'a> Job<'a> {
    /// A job for the proved code and for `second`.
    pub fn new(
        name: impl Into<String>,
        unit: Unit,
        proved: impl Fn() -> Duration + 'a,
        second: impl Fn() -> Duration + 'a,
    ) -> Self {
        let job = Job {
            name: name.into(),
            unit,
            contenders: Vec::new(),
        };
        job.beside(proved).beside(second)
    }

    /// The same job for one more.
    pub fn beside(mut self, run: impl Fn() -> Duration + 'a) -> Self {
        self.contenders.push(Contender {
            run: Box::new(run),
            best: Duration::MAX,
        });
        self
    }

    /// One run of each; the next one goes first in the next round.
    fn run(&mut self, round: usize) {
        let count = self.contenders.len();
        for i in 0..count {
            let contender = &mut self.contenders[(round + i) % count];
            contender.best = contender.best.min((contender.run)());
        }
    }

    /// The cells of the table's row: the best of each, and by how much the proved
    /// code is faster than each other.
    fn cells(&self) -> Vec<String> {
        let best = self.contenders.iter().map(|contender| contender.best);
        let values = best.clone().map(|time| figure(self.unit.value(time)));
        let [proved, others @ ..] = &self.contenders[..] else {
            return Vec::new();
        };
        let ratio = |other: &Contender| other.best.as_secs_f64() / proved.best.as_secs_f64();
        let ratios = others.iter().map(|other| format!("{:.3}", ratio(other)));
        values.chain(ratios).collect()
    }
}

/// Gives each job to all in turn, for so long, and prints a table of the best
/// times. The names are those of the jobs' contenders, the proved code first.
pub fn measure(caption: &str, names: &[&str], mut jobs: Vec<Job>, long: Duration) {
    let start = Instant::now();
    let mut rounds = 0;
    while start.elapsed() < long {
        for job in &mut jobs {
            job.run(rounds);
        }
        rounds += 1;
    }
    let caption = format!("{caption}, the best of {rounds} runs of each in turn");
    let ratios = names.iter().skip(1);
    let ratios = ratios.map(|other| format!("{} / {other}", names[0]));
    let names = names.iter().map(|name| name.to_string());
    let rows = jobs.iter().map(|job| {
        let name = format!("{}, {}", job.name, job.unit.name());
        std::iter::once(name).chain(job.cells()).collect()
    });
    print(&caption, &names.chain(ratios).collect::<Vec<_>>(), rows);
}

/// Prints a table: the names of its columns behind the first, which says what is
/// measured, and its rows.
pub fn print(caption: &str, names: &[String], rows: impl Iterator<Item = Vec<String>>) {
    println!("{caption}:");
    println!();
    println!("| what | {} |", names.join(" | "));
    println!("|---|{}", "---|".repeat(names.len()));
    for row in rows {
        println!("| {} |", row.join(" | "));
    }
    println!();
}

/// A number with four digits that count, more before the point, fewer where it is
/// very small.
pub fn figure(value: f64) -> String {
    let whole_digits = value.log10().floor() as i32 + 1;
    let decimals = (4 - whole_digits).clamp(1, 7) as usize;
    format!("{value:.decimals$}")
}

/// The time that some work took.
pub fn timed(work: impl FnOnce()) -> Duration {
    let start = Instant::now();
    work();
    start.elapsed()
}
