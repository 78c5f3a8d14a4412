//! How accepted loads come by their depth figure, and counts of it.

use crate::contents::{Contents, Place};
use crate::limits::Limits;
use crate::questions::q2;
use std::fmt;

/// What sets a depth figure apart from the results of simpler rules.
#[derive(Clone, Copy, Debug, PartialEq, Eq)]
pub struct Origin {
    /// The last own class is less deep than the deepest.
    pub not_last: bool,
    /// Without parents in other packages no own class is as deep.
    pub through_store: bool,
}

/// The origin of the figure of the package loaded last, if the store is sound and has one.
pub fn origin(store: &[u8]) -> Option<Origin> {
    let contents = q2(store)?;
    let last = contents.packages.len().checked_sub(1)?;
    let lineages = &contents.packages[last].lineages;
    let deepest = lineages.iter().map(|l| l.depth).max();
    let own = depths_by(&contents, last, |_, parent| parent.package == last);
    Some(Origin {
        not_last: lineages.last().map(|l| l.depth) < deepest,
        through_store: own.into_iter().max() < deepest,
    })
}

/// The depth of each class of a package when not every parent counts: whether one does
/// is told by its place in the class's list and by the class that it is.
pub fn depths_by(
    contents: &Contents,
    package: usize,
    counts: impl Fn(usize, Place) -> bool,
) -> Vec<u8> {
    let mut depths: Vec<u8> = Vec::new();
    for lineage in &contents.packages[package].lineages {
        let mut deepest = 0;
        for (index, &parent) in lineage.parents.iter().enumerate() {
            let depth = match parent.package == package {
                true => depths[parent.class],
                false => contents.packages[parent.package].lineages[parent.class].depth,
            };
            if counts(index, parent) {
                deepest = deepest.max(depth);
            }
        }
        depths.push(deepest + 1);
    }
    depths
}

/// Accepted loads by their depth figure and its origin.
#[derive(Default)]
pub struct DepthCounts {
    by_figure: [u64; Limits::GREATEST.depth as usize + 1],
    not_last: u64,
    through_store: u64,
}

impl DepthCounts {
    /// Counts an accepted load with this figure, which left this store.
    pub fn note(&mut self, figure: u32, store: &[u8]) {
        self.by_figure[figure as usize] += 1;
        let origin = origin(store).expect("an accepted load leaves a sound store");
        self.not_last += u64::from(origin.not_last);
        self.through_store += u64::from(origin.through_store);
    }

    /// What was counted fewer times than this.
    pub fn shortfalls(&self, least: u64) -> Vec<String> {
        let figures = self.by_figure.iter().enumerate();
        let mut counts: Vec<(String, u64)> = figures
            .map(|(figure, &count)| (format!("loads carried depth {figure}"), count))
            .collect();
        counts.push(("the deepest class was not the last".into(), self.not_last));
        counts.push((
            "the depth came through the store".into(),
            self.through_store,
        ));
        let few = counts.into_iter().filter(|&(_, count)| count < least);
        few.map(|(what, count)| format!("{what} only {count} times"))
            .collect()
    }
}

impl fmt::Display for DepthCounts {
    fn fmt(&self, f: &mut fmt::Formatter) -> fmt::Result {
        write!(
            f,
            "by depth {:?}, the deepest class not the last in {}, the depth through the store in {}",
            self.by_figure, self.not_last, self.through_store
        )
    }
}
