//! The node that 9 and 10 name (02, No. 3): what it is to the chunk that is
//! refused, by a plain reading of both papers, and how often it was what.

use crate::came::least_nodes;
use ppspp::sys::PPSPP_NO_NODE;
use second::answer::{HASH_MISSING, HASH_WRONG};
use second::tree;
use second::wire::{self, Addressing, Layout};
use std::cmp::Reverse;
use std::collections::BTreeSet;
use std::fmt;

/// A number, and the node that it names.
pub type Answer = (u32, Option<u64>);

/// The numbers that name one.
pub const MISSING: u32 = HASH_MISSING as u32;
pub const WRONG: u32 = HASH_WRONG as u32;

/// The node that the proved code writes.
pub fn written(node: u64) -> Option<u64> {
    (node != PPSPP_NO_NODE).then_some(node)
}

/// Panics unless there is a node with 9 and 10, and none with any other number.
pub fn check(case: &str, (number, node): Answer) {
    let names = matches!(number, MISSING | WRONG);
    assert_eq!(node.is_some(), names, "{case}: {number} names {node:?}");
}

/// A chunk that comes, one of so many, and the nodes whose hashes come with it.
pub struct Offer {
    pub count: u32,
    pub chunk: u32,
    pub came: Vec<u64>,
}

impl Offer {
    /// That of a datagram, if it has a sound layout and a chunk.
    pub fn of(addressing: Addressing, count: u32, datagram: &[u8]) -> Option<Self> {
        let mut came = Vec::new();
        match wire::layout(addressing, datagram, &mut came) {
            Ok(Layout::MessagesAndData { chunk, .. }) => Some(Offer {
                count,
                chunk,
                came: came.into_iter().map(|(node, _)| node).collect(),
            }),
            _ => None,
        }
    }

    /// The nodes that a store with such trusted ones needs and that did not come,
    /// "by height falling, then by first chunk rising".
    pub fn missing(&self, trusts: impl Fn(u64) -> bool) -> Vec<u64> {
        let mut nodes = least_nodes(self.count, self.chunk, trusts);
        nodes.retain(|node| !self.came.contains(node));
        nodes.sort_by_key(|&node| (Reverse(tree::height(node)), tree::first_chunk(node)));
        nodes
    }

    /// "the first trusted node at or above" the leaf, or the chunk's peak.
    pub fn first_trusted(&self, trusts: impl Fn(u64) -> bool) -> u64 {
        let peaks = tree::peaks(self.count);
        let mut node = tree::leaf(self.chunk);
        while !trusts(node) && !peaks.contains(&node) {
            node = tree::parent(node);
        }
        node
    }
}

/// How often refused chunks named what.
#[derive(Default)]
pub struct Named {
    /// With 9: a peak, and a sibling.
    pub peak: usize,
    pub sibling: usize,
    /// Of these where several hashes were missing; and where a peak was named
    /// before a sibling, or a sibling before a peak.
    pub several: usize,
    pub peak_first: usize,
    pub sibling_first: usize,
    /// With 10: the root, as the peaks do not give its hash.
    pub peaks_fail: usize,
    /// What the climb misses: the root, another peak that came, the trusted leaf,
    /// and another trusted node.
    pub root: usize,
    pub peak_that_came: usize,
    pub leaf: usize,
    pub trusted: usize,
    /// The nodes that 9 named, and those that 10 did.
    pub nodes: [BTreeSet<u64>; 2],
}

impl Named {
    /// Counts a refusal with 9 or 10 by a store with such trusted nodes. Panics
    /// where the node is none that may be named.
    pub fn add(&mut self, offer: &Offer, trusts: impl Fn(u64) -> bool, (number, node): Answer) {
        let node = node.expect("9 and 10 have a node");
        let missing = offer.missing(&trusts);
        if number == MISSING {
            assert_eq!(missing.first(), Some(&node), "the first that is missing");
            self.add_missing(&tree::peaks(offer.count), &missing);
        } else {
            assert!(missing.is_empty(), "10 with {missing:?} missing");
            self.add_wrong(offer, &trusts, node);
        }
        self.nodes[usize::from(number == WRONG)].insert(node);
    }

    fn add_missing(&mut self, peaks: &[u64], missing: &[u64]) {
        let is_peak = |node: &u64| peaks.contains(node);
        let of_both = missing.iter().any(is_peak) && !missing.iter().all(is_peak);
        let [all, first] = match is_peak(&missing[0]) {
            true => [&mut self.peak, &mut self.peak_first],
            false => [&mut self.sibling, &mut self.sibling_first],
        };
        *all += 1;
        *first += usize::from(of_both);
        self.several += usize::from(missing.len() > 1);
    }

    fn add_wrong(&mut self, offer: &Offer, trusts: &impl Fn(u64) -> bool, node: u64) {
        let peaks = tree::peaks(offer.count);
        let must_come = !peaks.iter().all(|&peak| trusts(peak));
        let (root, met) = (tree::root(offer.count), offer.first_trusted(trusts));
        let kind = if node != met {
            assert!(must_come && node == root, "{node} is not {met}");
            &mut self.peaks_fail
        } else if node == root {
            &mut self.root
        } else if must_come && peaks.contains(&node) {
            &mut self.peak_that_came
        } else if node == tree::leaf(offer.chunk) {
            &mut self.leaf
        } else {
            &mut self.trusted
        };
        *kind += 1;
    }

    /// How often each kind was named.
    fn kinds(&self) -> [(&'static str, usize); 10] {
        [
            ("9: a peak", self.peak),
            ("a sibling", self.sibling),
            ("the first of several", self.several),
            ("a peak before a sibling", self.peak_first),
            ("a sibling before a peak", self.sibling_first),
            ("10: the root, for the peaks", self.peaks_fail),
            ("the root, for the climb", self.root),
            ("a peak that came", self.peak_that_came),
            ("a trusted leaf", self.leaf),
            ("another trusted node", self.trusted),
        ]
    }

    /// Panics where a kind was named less often than so many times, or where 9 or
    /// 10 named fewer nodes than so many.
    pub fn demand(&self, often: usize, nodes: usize) {
        for (kind, times) in self.kinds() {
            assert!(times >= often, "{kind} is rare: {times} times");
        }
        let known = self.nodes.each_ref().map(BTreeSet::len);
        assert!(known.iter().all(|&known| known >= nodes), "{known:?} nodes");
    }
}

impl fmt::Display for Named {
    fn fmt(&self, f: &mut fmt::Formatter) -> fmt::Result {
        write!(f, "named with ")?;
        for (kind, times) in self.kinds() {
            write!(f, "{kind} {times}, ")?;
        }
        let [missing, wrong] = self.nodes.each_ref().map(BTreeSet::len);
        write!(f, "{missing} and {wrong} nodes in all")
    }
}
