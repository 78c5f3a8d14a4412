//! Hostile stores of chains of classes of kind 0 and levels of interfaces: question 20
//! compares the lists of the methods that run with those of all interfaces above.

use crate::hostile::{aid, asked, filled, packed, packed_in, runs, start, workload};
use crate::hostile::{CHAIN, CHAIN_DECLARED, LARGEST, OWN_ALONE};
use crate::hostile_lists::Lists;
use crate::ordinary::domain;
use crate::workloads::{used, Workload};
use independent::generate::model::{ClassModel, FileModel};
use independent::ledger::Entry;
use independent::limits::Limits;
use independent::policy::OWN;

/// The classes of the chain by the standard limits: one above the depth limit.
const CLASSES: u8 = Limits::STANDARD.depth - 1;

/// The most levels of interfaces by limits, a class between them and the limit.
fn levels_most(limits: Limits) -> usize {
    usize::from(limits.depth) - 2
}

/// A package whose classes of kind 0 are a chain of so many, each with so many names of its
/// own.
fn chain_package(classes: u8, names: u16, domains: Vec<Vec<u8>>, allowed: &[u8]) -> Entry {
    let class = |k: u8| {
        let parents: Vec<(u8, u8)> = (0..k)
            .last()
            .map(|parent| (0, parent))
            .into_iter()
            .collect();
        let first = names * u16::from(k);
        let methods = (first..first + names).map(|name| runs(name, Some(allowed)));
        ClassModel::new(0, &parents, methods.collect())
    };
    packed(FileModel {
        aid: aid(1),
        domains,
        classes: (0..classes).map(class).collect(),
        ..FileModel::default()
    })
}

/// One level of interfaces: so many in a package, all with the same methods.
struct Level {
    home: usize,
    domains: Vec<Vec<u8>>,
    count: u8,
    /// Of each interface.
    parents: u8,
    names: u16,
    asking: Vec<u8>,
}

impl Level {
    fn of(lists: &Lists, limits: Limits) -> Self {
        Level {
            home: lists.home,
            domains: lists.asked.clone(),
            count: 8,
            parents: limits.parents,
            names: 4,
            asking: lists.asking.clone(),
        }
    }

    /// Its package, with parents in the level before, if there is one.
    fn package(&self, number: usize, before: Option<usize>) -> Entry {
        let most = self.parents;
        let all = |i: u8| {
            (0..most)
                .map(|k| (1, (most * i + k) % self.count))
                .collect()
        };
        let methods = (0..self.names).map(|name| asked(name, &self.asking));
        let interface = ClassModel::new(1, &[], methods.collect());
        let class = |i: u8| ClassModel {
            parents: before.map_or(Vec::new(), |_| all(i)),
            ..interface.clone()
        };
        let model = FileModel {
            aid: aid(number),
            domains: self.domains.clone(),
            imports: before.map(aid).into_iter().collect(),
            classes: (0..self.count).map(class).collect(),
            ..FileModel::default()
        };
        packed_in(self.home, model)
    }
}

/// The classes below all others: so many parents, the first of them this class, by the number of its
/// package and its own, the others interfaces; and whether each declares a method of its own.
struct Below {
    parents: usize,
    above: (usize, u8),
    declares: bool,
}

impl Below {
    fn of(parents: usize, above: (usize, u8)) -> Self {
        let declares = false;
        Below {
            parents,
            above,
            declares,
        }
    }

    /// Class i. Its method has a name that no other class has, and no code: four bytes, and what runs
    /// for each class differs.
    fn class(&self, i: u8) -> ClassModel {
        let four = [
            (1, self.above.1),
            (2, i % 4),
            (2, (i + 1) % 4),
            (2, (i + 2) % 4),
        ];
        let method = self.declares.then(|| asked(0x7000 + u16::from(i), &[]));
        ClassModel::new(0, &four[..self.parents], method.into_iter().collect())
    }
}

/// Up to so many levels of interfaces by turns, in about half of the store; then packages of 32 classes
/// below these.
fn below_class(
    mut entries: Vec<Entry>,
    length: usize,
    (levels, most): (&[Level], usize),
    below: &Below,
) -> Vec<Entry> {
    let mut last = 1;
    for level in 0..most {
        let before = (level > 0).then_some(last);
        let entry = levels[level % levels.len()].package(last + 1, before);
        if used(&entries) + used(std::slice::from_ref(&entry)) > length / 2 {
            break;
        }
        entries.push(entry);
        last += 1;
    }
    filled(entries, length, |k| {
        packed(FileModel {
            aid: aid(100 + k),
            imports: vec![aid(below.above.0), aid(last)],
            classes: (0..32).map(|i| below.class(i)).collect(),
            ..FileModel::default()
        })
    })
}

/// A chain with as many names as there is room for, each with this list.
fn chain_with(name: &'static str, kb: usize, list: &[u8], declares: bool) -> Workload {
    let length = (1024 * kb).min(LARGEST);
    let (names, count) = if kb == 8 { (16, 8) } else { (64, 16) };
    let mut entries = start();
    entries.push(chain_package(CLASSES, names, vec![], list));
    let level = Level {
        home: 0,
        domains: vec![],
        count,
        parents: 4,
        names,
        asking: list.to_vec(),
    };
    let levels = (&[level][..], levels_most(Limits::STANDARD));
    let below = Below {
        declares,
        ..Below::of(2, (1, CLASSES - 1))
    };
    let entries = below_class(entries, length, levels, &below);
    workload(name, &entries, length)
}

/// The chain, its levels and their parents at the greatest limits; room for these is left.
pub(crate) fn deep_chain(name: &'static str, kb: usize) -> Workload {
    let length = (1024 * kb).min(LARGEST);
    let names = if kb == 8 { 16 } else { 64 };
    let classes = Limits::GREATEST.depth - 1;
    let level = Level {
        home: 0,
        domains: vec![],
        count: 8,
        parents: Limits::GREATEST.parents,
        names,
        asking: vec![],
    };
    let mut entries = start();
    entries.push(chain_package(classes, names, vec![], &[]));
    let levels = (&[level][..], usize::from(classes));
    let room = length - Limits::BYTES;
    let entries = below_class(entries, room, levels, &Below::of(2, (1, classes - 1)));
    workload(name, &entries, length)
}

pub(crate) fn chain(kb: usize) -> Workload {
    chain_with(CHAIN, kb, &[], false)
}

/// The same, each class below with a method of its own.
pub(crate) fn chain_declared() -> Workload {
    chain_with(CHAIN_DECLARED, 64, &[], true)
}

pub(crate) fn own_alone() -> Workload {
    chain_with(OWN_ALONE, 64, &[OWN], false)
}

pub(crate) fn chain_of_lists(name: &'static str, lists: Lists) -> Workload {
    let level = Level::of(&lists, Limits::STANDARD);
    let mut entries = start();
    entries.push(chain_package(CLASSES, 4, lists.running, &lists.listed));
    let levels = (&[level][..], levels_most(Limits::STANDARD));
    let entries = below_class(entries, LARGEST, levels, &Below::of(4, (1, CLASSES - 1)));
    workload(name, &entries, LARGEST)
}

/// The same where the methods that run lie in two packages by turns, and the interfaces
/// in the homes of both.
pub(crate) fn lists_by_turns(name: &'static str, lists: [Lists; 2]) -> Workload {
    turns_within(name, &lists, Limits::STANDARD, false)
}

/// The same, each class below with a method of its own.
pub(crate) fn turns_declared(name: &'static str, lists: [Lists; 2]) -> Workload {
    turns_within(name, &lists, Limits::STANDARD, true)
}

/// The same at the greatest limits; room for these is left.
pub(crate) fn deep_turns(name: &'static str, lists: [Lists; 2]) -> Workload {
    turns_within(name, &lists, Limits::GREATEST, true)
}

fn turns_within(
    name: &'static str,
    lists: &[Lists; 2],
    limits: Limits,
    declares: bool,
) -> Workload {
    let levels = [Level::of(&lists[0], limits), Level::of(&lists[1], limits)];
    let package = |number: usize, imports, lists: &Lists, parents: &[(u8, u8)], names: [u16; 2]| {
        let methods = names.map(|name| runs(name, Some(&lists.listed)));
        let model = FileModel {
            aid: aid(number),
            domains: lists.running.clone(),
            imports,
            classes: vec![ClassModel::new(0, parents, methods.to_vec())],
            ..FileModel::default()
        };
        packed_in(lists.home, model)
    };
    let mut entries = start();
    if lists[1].home != lists[0].home {
        entries.push(Entry::domain(&domain(lists[1].home)));
    }
    entries.push(package(1, vec![], &lists[0], &[], [1, 3]));
    entries.push(package(50, vec![aid(1)], &lists[1], &[(1, 0)], [0, 2]));
    let levels = (&levels[..], levels_most(limits));
    let below = Below {
        declares,
        ..Below::of(4, (50, 0))
    };
    let entries = below_class(entries, LARGEST - Limits::BYTES, levels, &below);
    workload(name, &entries, LARGEST)
}
