//! Fixed sequences of request 9: domains of both kinds under one AID, kinds of entries in
//! every way, packages that meet across kinds.

use super::faults::{RETURN, STATIC_BODY};
use super::handler_cases::every_two;
use super::int_cases::{after_both, with_code, WITHOUT};
use super::limit_cases::probe;
use super::model::{ClassModel, FileModel, MethodModel};
use super::special::{load_in, over, BOTH_FRESH, DOMAIN, FIRST, OTHER, SECOND, THIRD};
use crate::ledger::Call;
use crate::loader::{Independent, Loader, Sequence, Step};
use crate::package::Version;
use crate::store;
use crate::without_int::DomainKind;

/// A code with a barred instruction.
const INT: &[u8] = &[0x0A, 0x7A];

/// Four calls in every way: both creations and the deletion of one AID, loads there with and
/// without a barred instruction, and the removal.
pub fn domains() -> Vec<Sequence> {
    let [with_int, without] = [INT, RETURN].map(|code| with_code(Version::First, code));
    let calls = [
        Call::Create(DOMAIN.to_vec()),
        Call::CreateWithoutInt(DOMAIN.to_vec()),
        Call::Delete(DOMAIN.to_vec()),
        load_in(DOMAIN, &with_int),
        load_in(DOMAIN, &without),
        Call::Remove(FIRST.to_vec()),
    ];
    let pairs: Vec<[&Call; 2]> = calls
        .iter()
        .flat_map(|a| calls.iter().map(move |b| [a, b]))
        .collect();
    let of = |first: Call| {
        let mut all = Vec::new();
        for (first_two, last_two) in pairs.iter().flat_map(|a| pairs.iter().map(move |b| (a, b))) {
            all.push(first.clone());
            all.extend(first_two.iter().chain(last_two).map(|&call| call.clone()));
        }
        over(vec![0x5A; 128], all)
    };
    BOTH_FRESH.into_iter().map(of).collect()
}

/// Creations of both kinds in stores in which they fit to the byte, or not by some bytes.
pub fn rooms() -> Vec<Sequence> {
    let of = |first: &Call, length: usize| {
        let mut calls = vec![first.clone()];
        calls.extend(DomainKind::BOTH.map(|kind| Call::create(kind, &[kind.entry_kind(); 16])));
        for (kind, bytes) in DomainKind::BOTH
            .into_iter()
            .flat_map(|k| (5..=16).map(move |l| (k, l)))
        {
            let last = vec![9; bytes];
            calls.extend([Call::create(kind, &last), Call::Delete(last)]);
        }
        over(vec![0x5A; length], calls)
    };
    let both = BOTH_FRESH.iter();
    both.flat_map(|first| (64..=72).map(move |length| of(first, length)))
        .collect()
}

/// A store with a package in a domain of each kind, the second calling the first, which has a
/// barred instruction; the third domain is empty.
fn both_kinds(first: Call) -> Vec<u8> {
    let mut store = vec![0; 256];
    let calls = [
        first,
        Call::Create(DOMAIN.to_vec()),
        Call::CreateWithoutInt(WITHOUT.to_vec()),
        load_in(DOMAIN, &callee(Version::First, INT)),
        load_in(WITHOUT, &caller(Version::Second, RETURN)),
        Call::CreateWithoutInt(OTHER.to_vec()),
    ];
    for call in &calls {
        assert_eq!(Independent.call(&mut store, call) as u8, 0);
    }
    store
}

/// Calls that ask for the kinds of the domains and leave the store.
fn asking() -> Vec<Step> {
    let file = FileModel {
        aid: THIRD.to_vec(),
        ..callee(Version::First, INT)
    };
    let mut calls = vec![probe(), Call::Create(OTHER.to_vec())];
    for domain in [DOMAIN, WITHOUT, OTHER] {
        calls.extend([load_in(domain, &file), Call::Remove(THIRD.to_vec())]);
    }
    calls.into_iter().map(Step::Call).collect()
}

/// The kind of each entry in every way, and those of two entries turned from 1 to 3 or back.
pub fn kinds() -> Vec<Sequence> {
    let asking = asking();
    let of = |first: Call| {
        let start = both_kinds(first);
        let layout = store::layout(&start).expect("a store that is laid out");
        let places = layout.entries.iter().map(|entry| entry.bytes.start);
        let places: Vec<usize> = places.collect();
        let flip = |place, bits| Step::Damage { place, bits };
        let each = places
            .iter()
            .flat_map(|&p| (1..=255).map(move |bits| vec![flip(p, bits)]));
        let two = places
            .iter()
            .flat_map(|&p| places.iter().map(move |&q| vec![flip(p, 2), flip(q, 2)]));
        let changed = |damages: Vec<Step>| [&damages[..], &asking, &damages].concat();
        let steps = each.chain(two).flat_map(changed).collect();
        Sequence { start, steps }
    };
    BOTH_FRESH.into_iter().map(of).collect()
}

/// A file whose static method, which allows all, has this code.
fn callee(version: Version, code: &[u8]) -> FileModel {
    let method = MethodModel::new(STATIC_BODY, 1, None, code);
    FileModel {
        version,
        aid: FIRST.to_vec(),
        classes: vec![ClassModel::new(0, &[], vec![method])],
        ..FileModel::default()
    }
}

/// A file that calls that method before this code.
fn caller(version: Version, code: &[u8]) -> FileModel {
    let code = [&[0x8D, 0, 0], code].concat();
    FileModel {
        aid: SECOND.to_vec(),
        imports: vec![FIRST.to_vec()],
        references: vec![(1, 0, 1)],
        ..callee(version, &code)
    }
}

/// A package with or without a barred instruction, in a domain of either kind, called by such
/// another.
pub fn meetings() -> Vec<Sequence> {
    let ways = [WITHOUT, DOMAIN].map(|home| [INT, RETURN].map(|code| (home, code)));
    let ways: Vec<(&[u8], &[u8])> = ways.into_iter().flatten().collect();
    let mut calls = Vec::new();
    for [above, below] in every_two(Version::BOTH) {
        for &(first_home, first) in &ways {
            for &(second_home, second) in &ways {
                calls.push(load_in(first_home, &callee(above, first)));
                calls.push(load_in(second_home, &caller(below, second)));
                calls.extend([FIRST, SECOND, FIRST].map(|aid| Call::Remove(aid.to_vec())));
            }
        }
    }
    after_both(256, &calls).collect()
}
