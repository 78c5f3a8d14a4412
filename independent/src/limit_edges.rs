//! The edges of limits, and what is reached on each side of them.

use crate::limits::{Limit, Limits};

/// What is reached on each side of an edge.
#[derive(Clone, Copy, Debug, PartialEq, Eq, PartialOrd, Ord)]
pub enum Edge {
    /// Fresh was given this number for a limit, the others in range.
    Given(Limit, u16),
    /// A store has this number for a limit, the others in range; it is sound if all are.
    Stored(Limit, u16),
    /// A store of version 2 has this for used; it is refused.
    Used(u16),
    /// A file of this version was accepted in a store of this version.
    Loaded { store: u8, file: u8 },
    /// A file's longest code has this length; it passes 11 or not.
    Code {
        store: u8,
        length: u16,
        passes: bool,
    },
    /// A depth past 8 came through the store.
    DeepThroughStore,
}

/// The lengths of codes about which an edge is.
pub const CODES: [u16; 4] = [4_096, 4_097, 32_767, 32_768];

impl Edge {
    pub fn all() -> Vec<Edge> {
        let of_limits = Limit::ALL.into_iter().flat_map(|limit| {
            let numbers = edges_of(limit).into_iter();
            numbers.flat_map(move |n| [Edge::Given(limit, n), Edge::Stored(limit, n)])
        });
        let versions = [(1, 1), (1, 2), (2, 1), (2, 2)];
        let loaded = versions.map(|(store, file)| Edge::Loaded { store, file });
        let codes = CODES.into_iter().flat_map(|length| {
            [(1, true), (1, false), (2, true), (2, false)].map(|(store, passes)| Edge::Code {
                store,
                length,
                passes,
            })
        });
        let mut all: Vec<Edge> = of_limits.chain((7..=10).map(Edge::Used)).collect();
        all.extend(loaded);
        all.extend(codes.filter(Edge::may_be));
        all.push(Edge::DeepThroughStore);
        all
    }

    /// Can a code of this length pass, or not pass, in a store of this version?
    fn may_be(&self) -> bool {
        match *self {
            Edge::Code {
                store,
                length,
                passes,
            } => match store {
                1 => passes == (length <= Limits::STANDARD.code),
                _ => !passes || length <= Limits::GREATEST.code,
            },
            _ => true,
        }
    }
}

/// The numbers on both sides of both ends of a limit's range.
fn edges_of(limit: Limit) -> [u16; 4] {
    let greatest = Limits::GREATEST.of(limit);
    [0, 1, greatest, greatest + 1]
}

/// The limits whose number is on a side of an edge, the others in range.
pub fn at_edges(limits: Limits) -> impl Iterator<Item = (Limit, u16)> {
    let others = move |limit| limits.with(limit, 1).in_range();
    let edges = Limit::ALL.into_iter().filter(move |&limit| others(limit));
    edges
        .map(move |limit| (limit, limits.of(limit)))
        .filter(|(limit, number)| edges_of(*limit).contains(number))
}
