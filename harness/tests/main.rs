//! The comparisons. What is wanted comes from the independent second program, or
//! is worked out by hand from the papers.

mod acks;
mod bins;
mod channel;
mod channel_values;
mod intervals;
mod methods;
mod naming;
mod naming_others;
mod naming_subsets;
mod sha256;
mod state_room;
mod store;
mod tree;
mod wire;
mod wire_adding;
mod wire_by_hand;
mod wire_by_hand_bins;
mod wire_by_hand_refused;
