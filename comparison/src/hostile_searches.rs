//! Hostile stores of calls that name inheriting classes: question 18 searches through as many
//! interfaces as fit beside the callers, or up a chain of kind 0, and the last class in search
//! order declares the name.

use crate::hostile::{aid, filled, packed, start, workload, LARGEST};
use crate::hostile::{
    SEARCH_CHAIN, SEARCH_CROSSING, SEARCH_DEEP, SEARCH_DEEP_CHAIN, SEARCH_DEEP_CROSSING,
    SEARCH_DEEP_NONE, SEARCH_DEEP_TWO, SEARCH_LADDER, SEARCH_MANY, SEARCH_NAMES, SEARCH_NONE,
    SEARCH_ONE, SEARCH_TREE, SEARCH_TWO,
};
use crate::ordinary::domain;
use crate::ordinary_limits::limited;
use crate::search_ladders::Ladder;
use crate::workloads::{used, Workload};
use independent::generate::model::{ClassModel, FileModel, MethodModel};
use independent::ledger::{Call, Entry};
use independent::limits::{Limits, STANDARD_CODE};
use independent::package::{MAX_METHODS, MAX_REFERENCES};

/// All of them, in the order of the table.
pub(crate) fn with_searches() -> Vec<Workload> {
    let standard = Limits::STANDARD;
    let tree = Ladder::tree();
    let ladder = Ladder::of(standard, HALF);
    let crossing = Ladder {
        crossing: true,
        ..ladder.clone()
    };
    let names = Ladder::with_methods(standard, HALF, 8);
    let greatest = Limits::GREATEST;
    let deep = Ladder::of(greatest, HALF);
    let deep_crossing = Ladder {
        crossing: true,
        ..deep.clone()
    };
    let mut found = vec![
        tree.searched(SEARCH_TREE),
        ladder.searched(SEARCH_LADDER),
        crossing.searched(SEARCH_CROSSING),
        names.searched(SEARCH_NAMES),
        chain(SEARCH_CHAIN, standard),
        ladder.called(SEARCH_TWO, 2),
        ladder.called(SEARCH_MANY, 96),
        ladder.named(SEARCH_ONE),
        Ladder::of(standard, BESIDE_ONE).refused(SEARCH_NONE),
    ];
    let of_greatest = [
        deep.searched(SEARCH_DEEP),
        deep_crossing.searched(SEARCH_DEEP_CROSSING),
        chain(SEARCH_DEEP_CHAIN, greatest),
        deep.called(SEARCH_DEEP_TWO, 2),
        Ladder::of(greatest, BESIDE_ONE).refused(SEARCH_DEEP_NONE),
    ];
    found.extend(of_greatest.map(|workload| limited(greatest, workload)));
    found
}

/// The bytes that a ladder may take: half of the store, the other half being callers; and all
/// that one caller leaves.
const HALF: usize = LARGEST / 2;
const BESIDE_ONE: usize = LARGEST - 7_500;

/// The names that the last interface declares.
const NAMES: u16 = 60;

impl Ladder {
    /// The class below the ladder.
    fn class(&self) -> Named {
        Named {
            package: aid(self.first_package(self.widths.len())),
            class: 0,
        }
    }

    /// Callers of as many references as a file may have, each called.
    fn searched(&self, name: &'static str) -> Workload {
        let class = self.class();
        with_callers(name, self.entries(NAMES), |number| {
            class.of_references(number, 0)
        })
    }

    /// Callers of so many references by turns, as many calls as fit in two of the longest codes.
    fn called(&self, name: &'static str, count: u16) -> Workload {
        let most = (STANDARD_CODE as u16 - 1) / 3;
        let code = calls((0..most).map(|k| k % count));
        let codes = [code.clone(), code];
        let names: Vec<u16> = (0..count).map(|k| k % NAMES).collect();
        let class = self.class();
        with_callers(name, self.entries(NAMES), |number| {
            class.caller(number, &names, &codes)
        })
    }

    /// Callers of one of as many references as a file may have.
    fn named(&self, name: &'static str) -> Workload {
        let names: Vec<u16> = (0..MAX_REFERENCES as u16).map(|k| k % NAMES).collect();
        let class = self.class();
        with_callers(name, self.entries(NAMES), |number| {
            class.caller(number, &names, &[calls(0..1)])
        })
    }

    /// The load of a caller whose last reference finds nothing.
    fn refused(&self, name: &'static str) -> Workload {
        let file = self.class().of_references(0, NAMES).bytes();
        let workload = workload(name, &self.entries(NAMES), LARGEST);
        assert!(used(&self.entries(NAMES)) + 12 + file.len() + Limits::BYTES <= LARGEST);
        Workload {
            call: Call::Load {
                domain: domain(0),
                file,
            },
            number: 18,
            ..workload
        }
    }
}

/// The class that callers name.
struct Named {
    package: Vec<u8>,
    class: u8,
}

impl Named {
    /// A package of callers: names of the class, and codes with calls of them.
    fn caller(&self, number: usize, names: &[u16], codes: &[Vec<u8>]) -> FileModel {
        let codes = codes.iter().enumerate();
        let methods =
            codes.map(|(name, code)| MethodModel::new(0xE0, name as u16, Some(&[]), code));
        FileModel {
            aid: aid(10_000 + number),
            imports: vec![self.package.clone()],
            references: names.iter().map(|&name| (1, self.class, name)).collect(),
            classes: vec![ClassModel::new(0, &[], methods.collect())],
            ..FileModel::default()
        }
    }

    /// A caller of as many references as a file may have, each called, the last of this name.
    fn of_references(&self, number: usize, last: u16) -> FileModel {
        let mut names: Vec<u16> = (0..MAX_REFERENCES as u16).map(|k| k % NAMES).collect();
        *names.last_mut().expect("a reference") = last;
        self.caller(number, &names, &[calls(0..MAX_REFERENCES as u16)])
    }
}

/// The store filled with these callers behind the entries.
fn with_callers(
    name: &'static str,
    entries: Vec<Entry>,
    make: impl Fn(usize) -> FileModel,
) -> Workload {
    let room = LARGEST - Limits::BYTES;
    let entries = filled(entries, room, |number| packed(make(number)));
    workload(name, &entries, LARGEST)
}

/// A chain of classes of kind 0 to the depth limit, as many other names in each as there may be;
/// the highest class declares the names that are called, behind all others.
fn chain(name: &'static str, limits: Limits) -> Workload {
    let method = |name| MethodModel::new(0x80, name, None, &[]);
    let class = |k: u8| {
        let parents: Vec<(u8, u8)> = (0..k).last().map(|above| (0, above)).into_iter().collect();
        let others = (0..MAX_METHODS as u16).map(|other| 0x100 * (1 + u16::from(k)) + other);
        let methods: Vec<MethodModel> = match k {
            0 => others
                .take(MAX_METHODS - usize::from(NAMES))
                .chain(0..NAMES)
                .map(method)
                .collect(),
            _ => others.map(method).collect(),
        };
        ClassModel::new(0, &parents, methods)
    };
    let mut entries = start();
    entries.push(packed(FileModel {
        aid: aid(1),
        classes: (0..limits.depth).map(class).collect(),
        ..FileModel::default()
    }));
    let named = Named {
        package: aid(1),
        class: limits.depth - 1,
    };
    with_callers(name, entries, |number| named.of_references(number, 0))
}

/// A code that calls these references by 8B.
fn calls(references: impl Iterator<Item = u16>) -> Vec<u8> {
    let call = |index: u16| [&[0x8B][..], &index.to_be_bytes()].concat();
    references.flat_map(call).chain([0x7A]).collect()
}
