//! An independent implementation, written from FIPS 180-4, RFC 7574, the yard
//! profile (01) and the changes requested after it (02, No. 1 to No. 3), against
//! which the proved crates are compared. It uses the standard library only, shares
//! no code with any other package, and is meant to be read beside those papers.

#![forbid(unsafe_code)]

pub mod answer;
pub mod bulk;
pub mod by_hand;
pub mod channel;
mod climb;
pub mod hex;
pub mod named_traces;
pub mod packets;
mod random;
pub mod replay;
pub mod run;
pub mod sha256;
pub mod store;
pub mod traces;
pub mod tree;
pub mod vectors;
pub mod wire;
pub mod wire_cases;
