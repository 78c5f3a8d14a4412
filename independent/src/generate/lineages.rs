//! Parents of three classes in every way.

use super::limits::chain;
use super::model::{ClassModel, FileModel};
use super::special::{after_fresh, load, FIRST, SECOND, THIRD};
use crate::ledger::Call;
use crate::loader::Sequence;
use crate::package::Version;

/// Package and class numbers of a class's parents.
type Parents = Vec<(u8, u8)>;

/// Files of three classes whose parents are chosen in every way from the earlier ones
/// and from installed classes of depth 1, 2 and 3; interfaces have up to two, classes
/// of kind 0 up to one.
pub fn lineages() -> Vec<Sequence> {
    let mut sequences = Vec::new();
    for (kind, most) in [(0, 1), (1, 2)] {
        for first in parent_lists(0, most) {
            for second in parent_lists(1, most) {
                let thirds = parent_lists(2, most).into_iter();
                let lists = thirds.map(|third| [first.clone(), second.clone(), third]);
                sequences.push(lineage_sequence(kind, lists));
            }
        }
    }
    sequences
}

/// Two packages with classes of depth 1, 2 and 3; then a package for each of these
/// lists of parents, of either version by turns, is loaded and removed.
fn lineage_sequence(kind: u8, lists: impl Iterator<Item = [Parents; 3]>) -> Sequence {
    let mut below = chain(SECOND, kind, 1);
    below.version = Version::Second;
    below.imports = vec![FIRST.to_vec()];
    below.classes[0].parents = vec![(1, 1)];
    let mut calls = vec![load(&chain(FIRST, kind, 2)), load(&below)];
    for (number, parents) in lists.enumerate() {
        let model = FileModel {
            version: Version::BOTH[number % 2],
            aid: THIRD.to_vec(),
            imports: vec![FIRST.to_vec(), SECOND.to_vec()],
            classes: parents.map(|p| ClassModel::new(kind, &p, vec![])).to_vec(),
            ..FileModel::default()
        };
        calls.extend([load(&model), Call::Remove(THIRD.to_vec())]);
    }
    after_fresh(256, calls)
}

/// Every list of up to this many parents, 1 or 2, for the class of this number.
fn parent_lists(class: u8, most: usize) -> Vec<Parents> {
    let mut reach = vec![(1, 0), (1, 1), (2, 0)];
    reach.extend((0..class).map(|own| (0, own)));
    let mut lists = vec![vec![]];
    for &first in &reach {
        lists.push(vec![first]);
        lists.extend(reach.iter().map(|&second| vec![first, second]));
    }
    lists.retain(|list| list.len() <= most);
    lists
}
