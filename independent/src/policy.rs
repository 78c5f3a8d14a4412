//! What a policy says, and what a method allows where it stands.

use crate::bytes::Reader;
use crate::misreadings::Misreading;

pub const MAX_ALLOWED: usize = 32;

/// The allowed count that stands for every domain.
pub const EVERY: u8 = 0xFF;

/// The index that stands for the domain of the method's own entry.
pub const OWN: u8 = 0xFE;

/// What a method's policy says, the same wherever its package is loaded.
#[derive(Clone, Copy, Debug)]
pub enum Policy<'a> {
    Every,
    /// Indexes, each an item of the list.
    Listed(&'a [u8]),
}

/// What an index in a list says.
#[derive(Clone, Copy, Debug, PartialEq, Eq)]
pub enum Item {
    /// The AID at this place among the file's domains.
    Aid(usize),
    /// The domain of the method's own entry.
    Own,
}

impl Item {
    pub fn of(index: u8) -> Self {
        match index {
            OWN => Item::Own,
            _ => Item::Aid(usize::from(index)),
        }
    }

    /// May it stand in a list of a file with so many domains?
    fn reads(self, domain_count: usize) -> bool {
        match self {
            Item::Aid(place) => place < domain_count,
            Item::Own => true,
        }
    }
}

impl Policy<'_> {
    /// Does it list FE?
    pub fn lists_own(&self) -> bool {
        matches!(self, Policy::Listed(indexes) if indexes.contains(&OWN))
    }
}

/// Reads the policies of a file.
pub struct PolicyReader {
    pub domain_count: usize,
    pub misreading: Option<Misreading>,
}

impl PolicyReader {
    /// An allowed count, 0 to 32 with that many indexes, or FF alone.
    pub fn read<'a>(&self, reader: &mut Reader<'a>) -> Option<Policy<'a>> {
        let count = reader.u1()?;
        if count == EVERY {
            return Some(Policy::Every);
        }
        if let Some(policy) = self.misreading.and_then(|wrong| wrong.alone(count)) {
            return Some(policy);
        }
        if usize::from(count) > MAX_ALLOWED {
            return None;
        }
        let indexes = reader.take(usize::from(count))?;
        let mut items = indexes.iter().map(|&index| Item::of(index));
        let reads = items.all(|item| item.reads(self.domain_count));
        (reads && !self.refused(indexes)).then_some(Policy::Listed(indexes))
    }

    /// Is a list that reads refused by a misreading?
    fn refused(&self, indexes: &[u8]) -> bool {
        let refuses = |wrong: Misreading| wrong.refuses(indexes, self.domain_count);
        self.misreading.is_some_and(refuses)
    }
}

/// For what a policy is read.
#[derive(Clone, Copy, Debug, PartialEq, Eq)]
pub enum Role {
    /// A query's method.
    Queried,
    /// The method that a call names, asked about the loading domain (question 19).
    Entered,
    /// The method that a call names, and the one that has the call (question 19).
    Called,
    Caller,
    /// The method that runs, and one of the class or its ancestors (question 20).
    Runs,
    Ancestor,
}

/// What a method allows where it stands: its policy with its entry's domain. Domains
/// are numbers that equal AIDs share.
#[derive(Clone, Copy)]
pub struct Standing<'a> {
    pub policy: Policy<'a>,
    /// The domains of the file.
    pub listed: &'a [usize],
    /// The domain that FE stands for; `None` by a misreading alone.
    pub own: Option<usize>,
}

impl Standing<'_> {
    /// The domain that an index stands for.
    #[inline]
    fn domain(&self, index: u8) -> Option<usize> {
        match Item::of(index) {
            Item::Aid(place) => Some(self.listed[place]),
            Item::Own => self.own,
        }
    }

    fn lists(&self, indexes: &[u8], domain: usize) -> bool {
        indexes.iter().any(|&i| self.domain(i) == Some(domain))
    }

    /// Does it allow this domain? One without a number is listed nowhere.
    pub fn allows(&self, domain: Option<usize>) -> bool {
        match self.policy {
            Policy::Every => true,
            Policy::Listed(indexes) => domain.is_some_and(|wanted| self.lists(indexes, wanted)),
        }
    }

    /// Does it allow all that the other allows?
    #[inline]
    pub fn allows_all(&self, other: &Standing) -> bool {
        match (self.policy, other.policy) {
            (Policy::Every, _) => true,
            (Policy::Listed(_), Policy::Every) => false,
            (Policy::Listed(have), Policy::Listed(need)) => {
                let mut wanted = need.iter().filter_map(|&i| other.domain(i));
                wanted.all(|domain| self.lists(have, domain))
            }
        }
    }
}
