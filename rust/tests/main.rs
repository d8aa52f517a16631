//! The crate's tests. What is wanted is worked out by hand from the papers, or comes from the independent second
//! program.

mod acknowledging;
mod adding_numbers;
mod bins_added;
mod bins_taken;
mod borrowed;
mod closing;
mod composing;
mod downloads;
mod garbled;
mod header;
mod looking;
mod methods;
mod nodes;
mod reading;
mod refusals;
mod sizes;
mod support;
mod values;
mod words;
