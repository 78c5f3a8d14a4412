//! The lists of the methods that run in a hostile store and of those asked for.

use crate::hostile::long;
use crate::ordinary::domain;
use independent::policy::OWN;

/// The domains and the lists of a file whose methods run, and of one whose are asked for.
/// Both lie in one domain.
pub(crate) struct Lists {
    pub home: usize,
    pub running: Vec<Vec<u8>>,
    pub listed: Vec<u8>,
    pub asked: Vec<Vec<u8>>,
    pub asking: Vec<u8>,
}

/// FE, then this many indexes.
fn own_then(indexes: u8) -> Vec<u8> {
    [OWN].into_iter().chain(0..indexes).collect()
}

/// This many indexes, then FE.
fn then_own(indexes: u8) -> Vec<u8> {
    (0..indexes).chain([OWN]).collect()
}

impl Lists {
    /// 32 domains in the same order, all listed.
    pub fn alike() -> Self {
        let domains: Vec<Vec<u8>> = (0..32).map(long).collect();
        Lists {
            home: 0,
            running: domains.clone(),
            listed: (0..32).collect(),
            asked: domains,
            asking: (0..32).collect(),
        }
    }

    /// In the other order.
    pub fn reversed() -> Self {
        let asked = (0..32).rev().map(long).collect();
        Lists {
            asked,
            ..Lists::alike()
        }
    }

    /// Each twice, the second time alone listed by the methods that run.
    pub fn twice() -> Self {
        let running = (0..32).map(|k| long(k / 2)).collect();
        let asked = (0..32).rev().map(|k| long(k / 2)).collect();
        Lists {
            running,
            asked,
            listed: (0..32).filter(|k| k % 2 == 1).collect(),
            ..Lists::alike()
        }
    }

    /// FE 32 times, in files without domains.
    pub fn own_repeated() -> Self {
        Lists {
            home: 0,
            running: vec![],
            listed: vec![OWN; 32],
            asked: vec![],
            asking: vec![OWN; 32],
        }
    }

    /// FE, then 31 domains in the same order.
    pub fn own_first() -> Self {
        let domains: Vec<Vec<u8>> = (0..31).map(long).collect();
        Lists {
            home: 0,
            running: domains.clone(),
            listed: own_then(31),
            asked: domains,
            asking: own_then(31),
        }
    }

    /// 31 domains in the other order, then FE.
    pub fn own_last() -> Self {
        Lists {
            listed: then_own(31),
            asked: (0..31).rev().map(long).collect(),
            asking: then_own(31),
            ..Lists::own_first()
        }
    }

    /// The methods that run list the own domain by its index, the last; those asked for
    /// by FE, the first.
    pub fn own_index() -> Self {
        Lists {
            running: (0..31).map(long).chain([domain(0)]).collect(),
            listed: (0..32).collect(),
            ..Lists::own_first()
        }
    }

    /// In a home, FE first and then the other home and 30 domains.
    pub fn turns_first(home: usize) -> Self {
        let domains: Vec<Vec<u8>> = [domain(1 - home)]
            .into_iter()
            .chain((0..30).map(long))
            .collect();
        Lists {
            home,
            running: domains.clone(),
            asked: domains,
            ..Lists::own_first()
        }
    }

    /// In a home, FE last and before it the other home and 30 domains, in the other order
    /// where asked for.
    pub fn turns_last(home: usize) -> Self {
        let first = Lists::turns_first(home);
        Lists {
            listed: then_own(31),
            asked: first.asked.into_iter().rev().collect(),
            asking: then_own(31),
            ..Lists::turns_first(home)
        }
    }
}
