//! Fixed sequences of request 12: limits given and stored on both sides of each edge, and
//! files at the limits of stores of either version.

use super::chosen_limits::ladder_of;
use super::faults::add_code;
use super::handler_cases::of_version;
use super::limits::{chain, plain_code};
use super::model::{ClassModel, FileModel};
use super::special::{after, load, over, DOMAIN, FIRST, SECOND};
use crate::ledger::Call;
use crate::limits::{Limit, Limits};
use crate::loader::{Independent, Loader, Sequence, Step};
use crate::package::{Version, MAX_CLASSES};
use crate::store::HEAD;

/// Limits of stores in which files are tried.
pub const CHOSEN: [Limits; 7] = [
    Limits::STANDARD,
    Limits::LEAST,
    Limits::GREATEST,
    Limits::new(8, 8, 4_097),
    Limits::new(9, 4, 4_095),
    Limits::new(2, 1, 256),
    Limits::new(15, 7, 32_766),
];

/// Limits on both sides of each edge, the others in range or not.
pub fn edges() -> Vec<Limits> {
    let mut found = Vec::new();
    for base in [Limits::STANDARD, Limits::LEAST, Limits::GREATEST] {
        for limit in Limit::ALL {
            let greatest = Limits::GREATEST.of(limit);
            let numbers = [0, 1, greatest - 1, greatest, greatest + 1, 0x80, 0xFF];
            found.extend(numbers.map(|number| base.with(limit, number)));
        }
    }
    let codes = [0x0100, 0x7F00, 0x8001, 0xFF7F, 0xFFFF];
    found.extend(codes.map(|number| Limits::STANDARD.with(Limit::Code, number)));
    found.extend([Limits::new(0, 0, 0), Limits::new(17, 9, 32_768)]);
    found.push(Limits::STANDARD);
    found
}

/// Each of these given to a buffer of each length, over bytes that are no store, over a
/// store of version 1 and over the store that the one before left.
pub fn given() -> Vec<Sequence> {
    let sequence = |length: usize, restored: bool| {
        let mut calls = Vec::new();
        for limits in edges() {
            if restored {
                calls.extend([Call::Fresh, Call::Create(FIRST.to_vec())]);
            }
            calls.extend([Call::FreshLimits(limits), probe()]);
            calls.extend([Call::Create(DOMAIN.to_vec()), load(&chain(FIRST, 0, 1))]);
        }
        over(vec![0x5A; length], calls)
    };
    [0, 10, 11, 63, 64, 65, 65_535, 65_536, 100_000]
        .into_iter()
        .flat_map(|length| [sequence(length, false), sequence(length, true)])
        .collect()
}

/// A call that writes nothing and answers 7 over a sound store without the package.
pub(super) fn probe() -> Call {
    Call::Query {
        domain: DOMAIN.to_vec(),
        package: SECOND.to_vec(),
        class: 0,
        name: 1,
    }
}

/// Each byte of the opening of a store of version 2 in every way, and its limits on both
/// sides of each edge; over a store without entries, one with a domain, one with packages.
pub fn stored() -> Vec<Sequence> {
    let mut full = chain(FIRST, 1, 3);
    add_code(&mut full, &plain_code(300));
    let domain = || Call::Create(DOMAIN.to_vec());
    let fills = [vec![], vec![domain()], vec![domain(), load(&full)]];
    fills.into_iter().map(stored_over).collect()
}

fn stored_over(fill: Vec<Call>) -> Sequence {
    let mut start = vec![0; 512];
    for call in [Call::FreshLimits(Limits::new(8, 4, 0x1000))]
        .iter()
        .chain(&fill)
    {
        Independent.call(&mut start, call);
    }
    let mut steps = Vec::new();
    let mut changed = |damages: &[Step]| {
        steps.extend_from_slice(damages);
        steps.push(Step::Call(probe()));
        steps.extend_from_slice(damages);
    };
    for place in 0..HEAD + Limits::BYTES {
        (1..=255).for_each(|bits| changed(&[Step::Damage { place, bits }]));
    }
    for limits in edges() {
        let bytes = limits.bytes().into_iter().enumerate();
        let damages = bytes.map(|(offset, byte)| {
            let place = HEAD + offset;
            let bits = byte ^ start[place];
            Step::Damage { place, bits }
        });
        changed(&damages.collect::<Vec<_>>());
    }
    Sequence { start, steps }
}

/// Files at the limits and past them, in stores of version 2 and of version 1, small and
/// large.
pub fn at_limits() -> Vec<Sequence> {
    let chosen = CHOSEN.map(|limits| (Call::FreshLimits(limits), limits));
    let stores = chosen.into_iter().chain([(Call::Fresh, Limits::STANDARD)]);
    stores
        .flat_map(|(first, limits)| {
            let sizes = Version::BOTH.map(|v| [8_192, 65_535].map(|length| (v, length)));
            sizes.into_iter().flatten().map(move |(version, length)| {
                let mut calls = files_at(limits, version);
                calls.extend(across(limits, version));
                after(first.clone(), length, calls)
            })
        })
        .collect()
}

/// The numbers at which something changes for a limit.
fn near(limit: Limit, limits: Limits) -> Vec<u16> {
    let ends = [limits, Limits::STANDARD, Limits::GREATEST].map(|l| l.of(limit));
    let mut found: Vec<u16> = ends.into_iter().flat_map(|n| [n - 1, n, n + 1]).collect();
    found.sort_unstable();
    found.dedup();
    found
}

/// A file for each number of each limit, loaded and removed.
fn files_at(limits: Limits, version: Version) -> Vec<Call> {
    let mut files = vec![ladder_of(FIRST, limits, 1)];
    for length in near(Limit::Code, limits) {
        let mut model = chain(FIRST, 0, 1);
        add_code(&mut model, &plain_code(length.into()));
        files.push(model);
    }
    for count in near(Limit::Parents, limits) {
        let mut model = chain(FIRST, 1, 1);
        let parents = vec![(0, 0); count.into()];
        model.classes.push(ClassModel::new(0, &parents, vec![]));
        files.push(model);
    }
    for depth in near(Limit::Depth, limits) {
        files.extend([0, 1].map(|kind| chain(FIRST, kind, depth as u8)));
    }
    files
        .into_iter()
        .flat_map(|file| {
            [
                load(&of_version(version, file)),
                Call::Remove(FIRST.to_vec()),
            ]
        })
        .collect()
}

/// A package for each level down to the depth limit and one past it: interfaces with the
/// most parents, all in the package before. The last is refused; below the last that is
/// not, a class is refused too, and beside it one is not.
pub fn across(limits: Limits, version: Version) -> Vec<Call> {
    let aid = |level: u8| vec![0xC0, 0, 0, 0, level];
    let package = |level: u8, above: u8, kind: u8, count: usize| {
        let imported = above > 0;
        let parents: Vec<(u8, u8)> = match imported {
            true => (0..limits.parents).map(|class| (1, class)).collect(),
            false => vec![],
        };
        FileModel {
            version,
            aid: aid(level),
            imports: imported.then(|| aid(above)).into_iter().collect(),
            classes: vec![ClassModel::new(kind, &parents, vec![]); count],
            ..FileModel::default()
        }
    };
    let (most, wide) = (limits.depth, usize::from(limits.parents));
    let mut calls: Vec<Call> = (1..=most + 1)
        .map(|level| load(&package(level, level - 1, 1, wide)))
        .collect();
    calls.push(load(&package(100, most, 0, MAX_CLASSES)));
    calls.push(load(&package(101, most - 1, 0, MAX_CLASSES)));
    let down = (1..=most).rev().chain([101]).chain((1..=most).rev());
    calls.extend(down.map(|level| Call::Remove(aid(level))));
    calls
}
