//! Counts of answers that hang on the version of a store and on its limits.

use crate::depths::origin;
use crate::ledger::Call;
use crate::limit_edges::{at_edges, Edge, CODES};
use crate::limits::{Limit, Limits};
use crate::misread_limits::LimitMisreading;
use crate::misreadings::Misreading;
use crate::operations::asked;
use crate::package::{self, Version};
use crate::questions::{judge_load, q1, q2, q2_by};
use crate::store::{self, layout_by, StoreVersion};
use std::collections::BTreeMap;
use std::fmt;

/// Limits that every file that could be laid out keeps.
const NONE: Limits = Limits::new(u8::MAX, u8::MAX, u16::MAX);

/// For each wrong reading, how many answers it would have changed; and the edges.
pub struct LimitCounts {
    told: [u64; LimitMisreading::COUNT],
    edges: BTreeMap<Edge, u64>,
}

impl Default for LimitCounts {
    fn default() -> Self {
        let edges = Edge::all().into_iter().map(|edge| (edge, 0));
        LimitCounts {
            told: [0; LimitMisreading::COUNT],
            edges: edges.collect(),
        }
    }
}

impl LimitCounts {
    /// Notes a call; the store is as it left it.
    pub fn note(&mut self, call: &Call, answer: u32, store: &[u8]) {
        let number = answer as u8;
        match call {
            Call::Fresh if number == 0 => {
                self.tell_where(|m| m.fresh_version() != StoreVersion::First)
            }
            Call::FreshLimits(limits) => self.note_given(*limits, number, store),
            _ if !q1(store) => {}
            Call::Load { domain, file } => {
                self.note_store(number, store);
                if number == 0 || number >= 11 {
                    self.note_load(domain, file, answer, store);
                    self.note_file(file, answer, store);
                }
            }
            _ => self.note_store(number, store),
        }
    }

    fn add(&mut self, edge: Edge) {
        *self.edges.entry(edge).or_default() += 1;
    }

    /// Counts the readings of which this holds.
    fn tell_where(&mut self, holds: impl Fn(LimitMisreading) -> bool) {
        for (told, misreading) in self.told.iter_mut().zip(LimitMisreading::all()) {
            *told += u64::from(holds(misreading));
        }
    }

    fn note_given(&mut self, limits: Limits, number: u8, store: &[u8]) {
        if q1(store) {
            at_edges(limits).for_each(|(limit, number)| self.add(Edge::Given(limit, number)));
        }
        let right = (number == 0).then_some(StoreVersion::Second(limits));
        self.tell_where(|m| {
            let wrong = m.fresh_number(store, limits);
            wrong != number || m.fresh_leaves(wrong, limits) != right
        });
    }

    /// Counts the readings by which the store is sound where it is not, or not where it is.
    fn note_store(&mut self, number: u8, store: &[u8]) {
        if let Some(([0, 2], limits)) = store::fields(store) {
            let used = store::used(store) as u16;
            if number == 2 && limits.in_range() && self.edges.contains_key(&Edge::Used(used)) {
                self.add(Edge::Used(used));
            }
            let of_opening = |m: &(Limit, u16)| limits.fits(m.0) == (number != 2);
            let edges: Vec<_> = at_edges(limits).filter(of_opening).collect();
            edges
                .into_iter()
                .for_each(|(limit, n)| self.add(Edge::Stored(limit, n)));
        }
        self.tell_where(|m| {
            let misreading = Misreading::Limits(m);
            !m.reads_alike(store)
                && match number {
                    2 => q2_by(store, Some(misreading)).is_some(),
                    _ => layout_by(store, Some(misreading)).is_none(),
                }
        });
    }

    /// Counts the readings by whose limits a load would have been answered otherwise.
    fn note_load(&mut self, domain: &[u8], file: &[u8], answer: u32, store: &[u8]) {
        let (number, figure) = (answer as u8, (answer >> 8) as u8);
        let (Some(version), Some(of_file)) =
            (StoreVersion::of(store), package::version(file, None))
        else {
            return;
        };
        self.tell_where(|m| {
            let misreading = Misreading::Limits(m);
            let wrong = match misreading.after_soundness() {
                Some(m) => m.limits_for(m.limits_of(version), of_file),
                None => version.limits(),
            };
            let reads = || package::read(file, wrong).is_some();
            wrong != version.limits()
                && match number {
                    0 => figure > wrong.depth || !reads(),
                    11 => reads(),
                    14 => !reads() || goes_on(store, domain, file, wrong),
                    _ => !reads(),
                }
        });
    }

    fn note_file(&mut self, file: &[u8], answer: u32, bytes: &[u8]) {
        let (Some(version), Some(package)) = (StoreVersion::of(bytes), package::read(file, NONE))
        else {
            return;
        };
        let store = match version {
            StoreVersion::First => 1,
            StoreVersion::Second(_) => 2,
        };
        if answer as u8 == 0 {
            let file = match package.version {
                Version::First => 1,
                Version::Second => 2,
            };
            self.add(Edge::Loaded { store, file });
            let deep = answer >> 8 > Limits::STANDARD.depth.into();
            if deep && origin(bytes).is_some_and(|found| found.through_store) {
                self.add(Edge::DeepThroughStore);
            }
        }
        let methods = package.classes.iter().flat_map(|class| &class.methods);
        let longest = methods.filter_map(|m| m.code).map(<[u8]>::len).max();
        let length = longest.unwrap_or(0) as u16;
        if CODES.contains(&length) {
            let passes = answer as u8 != 11;
            self.add(Edge::Code {
                store,
                length,
                passes,
            });
        }
    }

    fn counts(&self) -> Vec<(String, u64)> {
        let told = LimitMisreading::all().zip(self.told);
        let told = told.map(|(m, count)| (format!("{m:?}"), count));
        let edges = self
            .edges
            .iter()
            .map(|(edge, &count)| (format!("{edge:?}"), count));
        edges.chain(told).collect()
    }

    /// What was counted fewer times than this.
    pub fn shortfalls(&self, least: u64) -> Vec<String> {
        let few = self
            .counts()
            .into_iter()
            .filter(|&(_, count)| count < least);
        few.map(|(what, count)| format!("{what} was reached only {count} times"))
            .collect()
    }
}

/// Would a load that 14 refuses go on with these limits?
fn goes_on(store: &[u8], domain: &[u8], file: &[u8], limits: Limits) -> bool {
    let Some(mut contents) = q2(store) else {
        return false;
    };
    contents.limits = limits;
    judge_load(&mut contents, asked::room(store), domain, file) != Err(14)
}

impl fmt::Display for LimitCounts {
    fn fmt(&self, f: &mut fmt::Formatter) -> fmt::Result {
        let counts = self.counts();
        let (edges, told) = counts.split_at(self.edges.len());
        let listed = |counts: &[(String, u64)]| {
            let counts = counts.iter().map(|(what, count)| format!("{what} {count}"));
            counts.collect::<Vec<_>>().join(", ")
        };
        writeln!(f, "edges of limits: {}", listed(edges))?;
        write!(
            f,
            "answers that tell readings of limits apart: {}",
            listed(told)
        )
    }
}
