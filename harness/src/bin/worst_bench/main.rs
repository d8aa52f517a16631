//! Which datagram costs the most for its bytes: a search over datagrams of every
//! kind that a sender can make, for a store of 512 chunks under ranges, or under
//! bins with the argument `bins`.
//!
//! The measure is what hashing as many bytes takes the proved SHA-256 here: to
//! take in a datagram that is refused, or has no DATA, is to take at most twice
//! that and 100 ns. The search begins with datagrams of every kind and goes on with
//! random changes of the worst ones, with a fixed seed, for some seconds. Of every
//! answer the worst datagram found is then measured again, beside `second`, and
//! printed; no number decides anything.
//!
//! Every take finds its store in the same state: a run takes the datagram in once
//! in each of some copies of a store, and outside of its time they are made again
//! as they were. The best of several runs counts.

mod candidate;
mod changes;
mod kinds;
mod scenes;
mod search;
mod table;
mod told;

use scenes::METHOD;
use search::Search;
use second::wire::Addressing;

fn main() {
    let bins = std::env::args()
        .nth(1)
        .is_some_and(|method| method == "bins");
    let addressing = if bins {
        Addressing::Bins
    } else {
        Addressing::Ranges
    };
    METHOD.get_or_init(|| addressing);
    let mut search = Search::new();
    search.begin();
    search.climb();
    table::print(search);
}
