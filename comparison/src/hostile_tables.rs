//! Hostile stores of many parents, domains, references, imports and names.

use crate::hostile::{aid, asked, filled, long, packed, runs, start, workload, LARGEST};
use crate::hostile::{NAMES, PACKAGES};
use crate::ordinary::domain;
use crate::workloads::Workload;
use independent::generate::model::{ClassModel, FileModel, MethodModel};
use independent::ledger::Entry;

/// Levels of packages of interfaces, each with its parents in the level before.
pub(crate) struct Levels {
    pub name: &'static str,
    pub count: usize,
    pub parents: u8,
    pub methods: u16,
    /// The bytes that may be in use.
    pub room: usize,
}

/// A package of 32 interfaces a level, and packages of one class below the last.
pub(crate) fn below(levels: &Levels) -> Workload {
    let (parents, methods) = (levels.parents, levels.methods);
    let mut entries = start();
    let asked: Vec<MethodModel> = (0..methods).map(|name| asked(name, &[])).collect();
    for level in 0..levels.count {
        let all = |i: u8| (0..parents).map(|k| (1, (parents * i + k) % 32)).collect();
        let parents = |i: u8| if level == 0 { Vec::new() } else { all(i) };
        entries.push(packed(FileModel {
            aid: aid(1 + level),
            imports: if level == 0 {
                Vec::new()
            } else {
                vec![aid(level)]
            },
            classes: (0..32)
                .map(|i| ClassModel::new(1, &parents(i), asked.clone()))
                .collect(),
            ..FileModel::default()
        }));
    }
    let entries = filled(entries, levels.room, |k| {
        let above: Vec<(u8, u8)> = (0..parents).map(|class| (1, class)).collect();
        let class = ClassModel::new(0, &above, vec![runs(0, None)]);
        packed(FileModel {
            aid: aid(100 + k),
            imports: vec![aid(levels.count)],
            classes: vec![class],
            ..FileModel::default()
        })
    });
    workload(levels.name, &entries, LARGEST)
}

/// A package of so many interfaces for each parent; each interface has one in each package
/// of the level before.
pub(crate) fn crossing(levels: &Levels, per_package: u8) -> Workload {
    let (packages, wide) = (levels.parents, usize::from(levels.parents));
    let methods = levels.methods;
    let mut entries = start();
    let asked: Vec<MethodModel> = (0..methods).map(|name| asked(name, &[])).collect();
    let across = |level: usize| (wide * level..wide * (level + 1)).map(aid).collect();
    for number in 0..wide * levels.count {
        let level = number / wide;
        let crossed = |i: u8| (0..packages).map(move |k| (k + 1, (packages * i + k) % per_package));
        let parents = |i: u8| crossed(i).filter(|_| level > 0).collect::<Vec<_>>();
        entries.push(packed(FileModel {
            aid: aid(number),
            imports: if level == 0 {
                Vec::new()
            } else {
                across(level - 1)
            },
            classes: (0..per_package)
                .map(|i| ClassModel::new(1, &parents(i), asked.clone()))
                .collect(),
            ..FileModel::default()
        }));
    }
    let first = entries.len().max(100);
    let entries = filled(entries, levels.room, |k| {
        let parents = |i: u8| (0..packages).map(move |k| (k + 1, (i + k) % per_package));
        let class = |i| ClassModel::new(0, &parents(i).collect::<Vec<_>>(), vec![runs(0, None)]);
        packed(FileModel {
            aid: aid(first + k),
            imports: across(levels.count - 1),
            classes: (0..32).map(class).collect(),
            ..FileModel::default()
        })
    });
    workload(levels.name, &entries, LARGEST)
}

/// A store full of domains with the shortest AIDs, their numbers in an order.
pub(crate) fn domains(name: &'static str, order: impl Fn(&mut [u32])) -> Workload {
    let mut numbers: Vec<u32> = (0..8_191).collect();
    order(&mut numbers);
    let aid = |number: &u32| [&[0xA0][..], &number.to_be_bytes()].concat();
    let entries: Vec<Entry> = numbers.iter().map(|n| Entry::domain(&aid(n))).collect();
    workload(name, &entries, LARGEST)
}

pub(crate) fn shuffle(numbers: &mut [u32]) {
    let mut state = 12_345_u64;
    for place in (1..numbers.len()).rev() {
        state = state
            .wrapping_mul(6_364_136_223_846_793_005)
            .wrapping_add(1_442_695_040_888_963_407);
        numbers.swap(place, (state >> 33) as usize % (place + 1));
    }
}

/// So many references to the last method of the last class of a package of 32 × 60 methods, the
/// first of them called.
pub(crate) fn references(name: &'static str, count: u16, called: u16) -> Workload {
    let last = MethodModel::new(0xE0, 59, None, &[0x7A]);
    let methods = |_| {
        (0..59)
            .map(|name| asked(name, &[]))
            .chain([last.clone()])
            .collect()
    };
    let classes = (0..32)
        .map(|i| ClassModel::new(0, &[], methods(i)))
        .collect();
    let mut entries = start();
    entries.push(packed(FileModel {
        aid: aid(1),
        classes,
        ..FileModel::default()
    }));
    let call = |index: u16| [&[0x8D][..], &index.to_be_bytes()].concat();
    let code: Vec<u8> = (0..called).flat_map(call).chain([0x7A]).collect();
    let caller = ClassModel::new(0, &[], vec![MethodModel::new(0xE0, 1, Some(&[]), &code)]);
    let entries = filled(entries, LARGEST, |k| {
        packed(FileModel {
            aid: aid(100 + k),
            imports: vec![aid(1)],
            references: vec![(1, 31, 59); usize::from(count)],
            classes: if called > 0 {
                vec![caller.clone()]
            } else {
                vec![]
            },
            ..FileModel::default()
        })
    });
    workload(name, &entries, LARGEST)
}

/// Files that import 15 packages of 32 domains each and list 32 others.
pub(crate) fn maps(name: &'static str, called: bool) -> Workload {
    let mut entries = start();
    let all: Vec<u8> = (0..32).collect();
    for k in 0..15 {
        let others = (0..31).map(|i| long(1_000 + 32 * k + i));
        let method = MethodModel::new(0xE0, 1, Some(&all), &[0x7A]);
        entries.push(packed(FileModel {
            aid: aid(1 + k),
            domains: others.chain([domain(0)]).collect(),
            classes: vec![ClassModel::new(0, &[], vec![method])],
            ..FileModel::default()
        }));
    }
    let code: Vec<u8> = (0..15)
        .flat_map(|index| [0x8D, 0, index])
        .chain([0x7A])
        .collect();
    let caller = ClassModel::new(0, &[], vec![MethodModel::new(0xE0, 1, Some(&[]), &code)]);
    let entries = filled(entries, LARGEST, |k| {
        packed(FileModel {
            aid: aid(100 + k),
            domains: (0..32).map(long).collect(),
            imports: (0..15).map(|i| aid(1 + i)).collect(),
            references: (0..15).map(|i| (1 + i, 0, 1)).collect(),
            classes: if called { vec![caller.clone()] } else { vec![] },
            ..FileModel::default()
        })
    });
    workload(name, &entries, LARGEST)
}

/// Packages whose AIDs, of 16 bytes, differ late and fall; each imports the first 15 times.
pub(crate) fn packages() -> Workload {
    let number = |k: usize| 60_000 - k;
    let entries = filled(start(), LARGEST, |k| {
        let imports = if k == 0 {
            vec![]
        } else {
            vec![long(number(0)); 15]
        };
        packed(FileModel {
            aid: long(number(k)),
            imports,
            ..FileModel::default()
        })
    });
    workload(PACKAGES, &entries, LARGEST)
}

/// Packages of 32 interfaces of 64 methods each.
pub(crate) fn names() -> Workload {
    let methods: Vec<MethodModel> = (0..64).rev().map(|name| asked(name, &[])).collect();
    let entries = filled(start(), LARGEST, |k| {
        let classes = vec![ClassModel::new(1, &[], methods.clone()); 32];
        packed(FileModel {
            aid: aid(1 + k),
            classes,
            ..FileModel::default()
        })
    });
    workload(NAMES, &entries, LARGEST)
}
