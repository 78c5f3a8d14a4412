//! Ladders of interfaces that searches for declarations go through: over as many packages as they
//! take, at most 32 interfaces in each.

use crate::hostile::{aid, packed, start};
use crate::workloads::used;
use independent::generate::model::{ClassModel, FileModel, MethodModel};
use independent::ledger::Entry;
use independent::limits::Limits;
use independent::package::MAX_CLASSES;
use std::collections::BTreeSet;

/// Interfaces in levels, the highest first, and one class of kind 0 below them all.
#[derive(Clone)]
pub(crate) struct Ladder {
    /// How many interfaces each level has.
    pub widths: Vec<usize>,
    /// How many parents each class has in the level above.
    pub parents: usize,
    /// Do the parents of a class lie in packages as far apart as there are?
    pub crossing: bool,
    /// How many other names each interface declares.
    pub others: u16,
}

impl Ladder {
    /// As many classes as the depth limit lets a class of kind 0 reach with four parents each, no
    /// class being a parent twice: 5,461.
    pub fn tree() -> Self {
        let levels = u32::from(Limits::STANDARD.depth) - 2;
        Ladder {
            widths: (1..=levels).rev().map(|level| 4_usize.pow(level)).collect(),
            parents: 4,
            crossing: false,
            others: 0,
        }
    }

    /// Levels up to the depth limit with the most parents each: the lower ones as wide as the
    /// ways to them, the higher ones as wide as these bytes allow.
    pub fn of(limits: Limits, bytes: usize) -> Self {
        Ladder::with_methods(limits, bytes, 0)
    }

    pub fn with_methods(limits: Limits, bytes: usize, others: u16) -> Self {
        let parents = usize::from(limits.parents);
        let levels = u32::from(limits.depth) - 1;
        let of_width = |most: usize| Ladder {
            widths: (1..=levels)
                .rev()
                .map(|level| parents.saturating_pow(level).min(most))
                .collect(),
            parents,
            crossing: false,
            others,
        };
        let widest = (parents..).take_while(|&most| used(&of_width(most).entries(1)) <= bytes);
        of_width(widest.last().expect("room for a ladder"))
    }

    /// The places in the level above of a class's parents.
    fn above(&self, level: usize, place: usize) -> Vec<usize> {
        let Some(wide) = level.checked_sub(1).map(|above| self.widths[above]) else {
            return Vec::new();
        };
        let next = |k: usize| match self.crossing {
            true => k * (wide / self.parents).max(1) + place,
            false => self.parents * place + k,
        };
        (0..self.parents).map(|k| next(k) % wide).collect()
    }

    /// Level and place of the interface that a search from the class asks last.
    fn last(&self) -> (usize, usize) {
        let mut asked = BTreeSet::new();
        let mut last = (0, 0);
        self.search(self.widths.len(), 0, &mut asked, &mut last);
        last
    }

    fn search(
        &self,
        level: usize,
        place: usize,
        asked: &mut BTreeSet<(usize, usize)>,
        last: &mut (usize, usize),
    ) {
        for above in self.above(level, place) {
            let interface = (level - 1, above);
            if asked.insert(interface) {
                *last = interface;
                self.search(level - 1, above, asked, last);
            }
        }
    }

    /// The number of the first package of a level; the class's is the last.
    pub fn first_package(&self, level: usize) -> usize {
        let widths = self.widths[..level].iter();
        1 + widths.map(|w| w.div_ceil(MAX_CLASSES)).sum::<usize>()
    }

    /// A package of the classes of a level from this place on.
    fn package(&self, level: usize, from: usize, declaring: (usize, usize), names: u16) -> Entry {
        let wide = self.widths.get(level).copied().unwrap_or(1);
        let places = from..wide.min(from + MAX_CLASSES);
        let parents = places.clone().flat_map(|place| self.above(level, place));
        let packages: BTreeSet<usize> = parents.map(|place| place / MAX_CLASSES).collect();
        let packages: Vec<usize> = packages.into_iter().collect();
        let kind = u8::from(level < self.widths.len());
        let class = |place: usize| {
            let numbered = |above: usize| {
                let import = packages.iter().position(|&p| p == above / MAX_CLASSES);
                let import = import.expect("an import") as u8 + 1;
                (import, (above % MAX_CLASSES) as u8)
            };
            let parents: Vec<(u8, u8)> =
                self.above(level, place).into_iter().map(numbered).collect();
            let others = (0..self.others).map(|k| 0x100 + k);
            let last = (level, place) == declaring;
            let declared = (0..names).filter(|_| last);
            let methods = others.filter(|_| kind == 1 && !last).chain(declared);
            let method = |name| MethodModel::new(0x80, name, None, &[]);
            ClassModel::new(kind, &parents, methods.map(method).collect())
        };
        let imports = packages.iter().map(|&package| {
            let above = level.checked_sub(1).expect("a level above");
            aid(self.first_package(above) + package)
        });
        packed(FileModel {
            aid: aid(self.first_package(level) + from / MAX_CLASSES),
            imports: imports.collect(),
            classes: places.map(class).collect(),
            ..FileModel::default()
        })
    }

    /// The domain and the ladder; the interface asked last declares so many names.
    pub fn entries(&self, names: u16) -> Vec<Entry> {
        let declaring = self.last();
        let mut entries = start();
        for level in 0..=self.widths.len() {
            let wide = self.widths.get(level).copied().unwrap_or(1);
            let places = (0..wide).step_by(MAX_CLASSES);
            entries.extend(places.map(|from| self.package(level, from, declaring, names)));
        }
        entries
    }
}
