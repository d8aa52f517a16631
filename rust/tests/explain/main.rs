//! The tests of `explain`, which is known by its arguments, its files, its output and its status alone. What is wanted
//! is worked out by hand from the papers, or comes from the independent second program.

mod acknowledging;
mod agreeing;
mod bins;
mod chunks;
mod differences;
mod effects;
mod files;
mod forms;
mod garbled;
mod handshakes;
mod lines;
mod messages;
mod nodes;
mod support;
