//! The nodes whose hashes a datagram has.

use super::{Names, MOST_NODES};
use crate::sha256::Digest;
use std::marker::PhantomData;

/// The nodes of a datagram, each once, in its order. Most datagrams have none, so
/// that the list is made with the first one.
pub(crate) struct Nodes<'d, N> {
    datagram: &'d [u8],
    list: Option<List>,
    names: PhantomData<N>,
}

struct List {
    /// The places of the hashes.
    places: [u16; MOST_NODES],
    count: usize,
    seen: Seen,
}

impl<'d, N: Names> Nodes<'d, N> {
    /// None yet, of a datagram.
    #[inline]
    pub fn of(datagram: &'d [u8]) -> Self {
        Nodes {
            datagram,
            list: None,
            names: PhantomData,
        }
    }

    /// Keeps a node whose hash has this place in the datagram, behind its name, and
    /// tells whether it is new.
    #[inline]
    pub fn keep(&mut self, node: u64, place: usize) -> bool {
        let list = self.list.get_or_insert_with(|| List {
            places: [0; MOST_NODES],
            count: 0,
            seen: Seen::default(),
        });
        let places = &list.places[..list.count];
        let perhaps = list.seen.insert(node);
        if perhaps && find::<N>(self.datagram, places, node).is_some() {
            return false;
        }
        list.places[list.count] = place as u16;
        list.count += 1;
        true
    }

    /// The hash of a node, if it came.
    #[inline]
    pub fn hash(&self, node: u64) -> Option<&'d Digest> {
        let list = self.list.as_ref()?;
        find::<N>(self.datagram, &list.places[..list.count], node)
    }
}

/// Of the hashes at these places of a datagram the one of a node.
#[inline]
fn find<'d, N: Names>(datagram: &'d [u8], places: &[u16], node: u64) -> Option<&'d Digest> {
    let name = Some(N::name_of(node));
    let mut places = places.iter().map(|&place| usize::from(place));
    let found = places.find(|&place| N::name_before(datagram, place) == name)?;
    datagram.get(found..)?.first_chunk()
}

/// Which nodes came, by ten bits of each: those of a pack differ in their low ten,
/// and what is above these is mixed in.
#[derive(Default)]
pub(super) struct Seen([u64; 16]);

impl Seen {
    /// Takes note of a node, and tells whether one of the same bits came before.
    #[inline]
    pub fn insert(&mut self, node: u64) -> bool {
        let bits = node ^ node >> 10 ^ node >> 20 ^ node >> 30;
        let word = &mut self.0[(bits / 64 % 16) as usize];
        let bit = 1 << (bits % 64);
        let seen = *word & bit != 0;
        *word |= bit;
        seen
    }
}
