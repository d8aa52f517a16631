//! The package's tests. What is wanted is published, worked out by hand, or follows from what was sent.

mod arguments;
mod bins;
mod bits;
mod checks;
mod naming;
mod plot;
mod program;
mod radio;
mod random;
mod record;
mod runs;
mod serving;
mod support;
