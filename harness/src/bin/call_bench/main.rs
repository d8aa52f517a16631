//! How fast the calls of the loader's interface are, beside `second`'s: on the
//! longest pack, how their cost grows with the number of chunks, and on chunks that
//! are refused for a hash.
//!
//! One process gives each job to both in turn, for some seconds, and the best
//! time of each counts. The tables are printed; no number decides anything.

mod growth;
mod jobs;
mod longest;
mod refused;

fn main() {
    longest::measure();
    growth::measure();
    refused::measure();
}
