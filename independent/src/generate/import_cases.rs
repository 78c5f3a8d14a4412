//! Fixed sequences of request 6: imports with AIDs that are nearly alike, in either order, the
//! same import twice, 15 imports, and package numbers past the imports.

use super::faults::{RETURN, STATIC_BODY};
use super::model::{ClassModel, FileModel, MethodModel};
use super::special::{after, load};
use crate::ledger::Call;
use crate::limits::Limits;
use crate::loader::Sequence;
use crate::package::MAX_IMPORTS;

/// The AID of the file that imports.
pub(super) const IMPORTER: &[u8] = &[0xA0, 0, 0, 9, 9];

/// Whom the method of an imported package is for.
#[derive(Clone, Copy, PartialEq, Eq)]
pub(super) enum For {
    Every,
    Nobody,
}

impl For {
    /// For nobody where this holds.
    pub fn nobody_if(closed: bool) -> Self {
        match closed {
            true => For::Nobody,
            false => For::Every,
        }
    }

    /// The number that a load with a call of the method is answered.
    pub fn number(self) -> u32 {
        match self {
            For::Every => 0,
            For::Nobody => 19,
        }
    }

    /// The method of this form, which has name 1 in every package: the place alone decides.
    pub fn method(self, bits: u8) -> MethodModel {
        let nobody: Option<&[u8]> = (self == For::Nobody).then_some(&[]);
        MethodModel::new(bits, 1, nobody, RETURN)
    }
}

/// A call, and the number that it is answered.
pub struct Case {
    pub call: Call,
    pub number: u32,
}

pub(super) fn case(call: Call, number: u32) -> Case {
    Case { call, number }
}

pub(super) fn removal(aid: &[u8]) -> Case {
    case(Call::Remove(aid.to_vec()), 0)
}

/// A package of one class with one static method.
pub(super) fn imported(aid: &[u8], whom: For) -> FileModel {
    FileModel {
        aid: aid.to_vec(),
        classes: vec![ClassModel::new(0, &[], vec![whom.method(STATIC_BODY)])],
        ..FileModel::default()
    }
}

/// A file with these imports, a reference to the first class of each of these package numbers,
/// and calls of the references at these indexes.
pub(super) fn importing(imports: &[&[u8]], numbers: &[u8], called: &[u16]) -> FileModel {
    let call = |index: &u16| [&[0x8D][..], &index.to_be_bytes()].concat();
    let code: Vec<u8> = called.iter().flat_map(call).chain([0x7A]).collect();
    let method = MethodModel::new(STATIC_BODY, 1, Some(&[]), &code);
    FileModel {
        aid: IMPORTER.to_vec(),
        imports: imports.iter().map(|aid| aid.to_vec()).collect(),
        references: numbers.iter().map(|&number| (number, 0, 1)).collect(),
        classes: vec![ClassModel::new(0, &[], vec![method])],
        ..FileModel::default()
    }
}

/// The load of a file, and its removal if it is accepted.
pub(super) fn judged(file: &FileModel, number: u32) -> Vec<Case> {
    let mut found = vec![case(load(file), number)];
    found.extend((number == 0).then(|| removal(IMPORTER)));
    found
}

/// Two AIDs that are nearly alike: one begins the other, they differ in the last byte, in a byte
/// or in zeros at the end, or in the first byte.
pub const PAIRS: [[&[u8]; 2]; 8] = [
    [&[1, 2, 3, 4, 5], &[1, 2, 3, 4, 5, 6]],
    [&[1, 2, 3, 4, 5], &[1, 2, 3, 4, 5, 0]],
    [&[1, 2, 3, 4, 0], &[1, 2, 3, 4, 0, 0]],
    [&[1, 2, 3, 4, 5], &[1, 2, 3, 4, 6]],
    [&[1; 5], &[1; 16]],
    [&[1; 15], &[1; 16]],
    [
        &[1, 1, 1, 1, 1, 1, 1, 1, 1, 1, 1, 1, 1, 1, 1, 1],
        &[1, 1, 1, 1, 1, 1, 1, 1, 1, 1, 1, 1, 1, 1, 1, 2],
    ],
    [&[0, 2, 3, 4, 5], &[1, 2, 3, 4, 5]],
];

/// Each pair in either order in the store and in the list of imports, either of them for every
/// domain, either or both called; and one of them alone, where the other is no import.
pub fn pairs() -> Vec<Case> {
    let mut found = Vec::new();
    for [one, other] in PAIRS.into_iter().flat_map(|[a, b]| [[a, b], [b, a]]) {
        found.push(case(load(&imported(one, For::Every)), 0));
        found.extend(judged(&importing(&[other], &[1], &[]), 13));
        found.extend(judged(&importing(&[one, other], &[1], &[0]), 13));
        found.push(case(load(&imported(other, For::Nobody)), 0));
        for imports in [vec![one], vec![one, other], vec![other, one]] {
            let open = imports.iter().position(|&aid| aid == one).unwrap_or(0);
            for called in 0..imports.len() {
                let number = For::nobody_if(called != open).number();
                let file = importing(&imports, &[1, 2], &[called as u16]);
                found.extend(judged(&file, number));
            }
            let both = [0, 1].map(|k: u16| k % imports.len() as u16);
            let number = if imports.len() == 1 { 0 } else { 19 };
            found.extend(judged(&importing(&imports, &[1, 2], &both), number));
        }
        found.extend([one, other].map(removal));
    }
    found
}

/// The AID of one of many packages; each begins none of the others.
pub(super) fn numbered(number: u8) -> [u8; 6] {
    [0xC0, 0, 0, 0, 0, number]
}

/// 17 packages, the j-th of them for none: files with 15 imports in the store's order and the
/// other, that call one, all but the j-th, or all.
pub fn fifteen() -> Vec<Case> {
    let mut found = Vec::new();
    let numbers: Vec<u8> = (1..=MAX_IMPORTS as u8).collect();
    for closed in [0, 1, 8, 15, 16] {
        let aids: Vec<[u8; 6]> = (0..MAX_IMPORTS as u8 + 2).map(numbered).collect();
        for (place, aid) in aids.iter().enumerate() {
            let whom = For::nobody_if(place == closed);
            found.push(case(load(&imported(aid, whom)), 0));
        }
        let lists: [Vec<usize>; 4] = [
            (0..15).collect(),
            (2..17).collect(),
            (0..15).rev().collect(),
            (2..17).rev().collect(),
        ];
        for list in lists {
            let imports: Vec<&[u8]> = list.iter().map(|&p| &aids[p][..]).collect();
            let answer = |k: u16| {
                if list[usize::from(k)] == closed {
                    19
                } else {
                    0
                }
            };
            for k in 0..MAX_IMPORTS as u16 {
                found.extend(judged(&importing(&imports, &numbers, &[k]), answer(k)));
            }
            let open: Vec<u16> = (0..MAX_IMPORTS as u16)
                .filter(|&k| answer(k) == 0)
                .collect();
            found.extend(judged(&importing(&imports, &numbers, &open), 0));
            let all: Vec<u16> = (0..MAX_IMPORTS as u16).collect();
            let number = if open.len() == all.len() { 0 } else { 19 };
            found.extend(judged(&importing(&imports, &numbers, &all), number));
        }
        found.extend(aids.iter().map(|aid| removal(aid)));
    }
    found
}

/// One import at several numbers, each of them called, beside one for no domain.
pub fn repeated() -> Vec<Case> {
    let [open, closed] = [numbered(1), numbered(2)];
    let mut found = vec![
        case(load(&imported(&open, For::Every)), 0),
        case(load(&imported(&closed, For::Nobody)), 0),
    ];
    for count in [2, 3, 15] {
        for at in 0..=count {
            let list: Vec<bool> = (0..count).map(|k| k == at).collect();
            // All but one are the open one, and the other way round.
            for turned in [false, true] {
                let aid = |&other: &bool| {
                    if other != turned {
                        &closed[..]
                    } else {
                        &open[..]
                    }
                };
                let imports: Vec<&[u8]> = list.iter().map(aid).collect();
                let numbers: Vec<u8> = (1..=count as u8).collect();
                for (k, aid) in imports.iter().enumerate() {
                    let number = For::nobody_if(*aid != open).number();
                    let file = importing(&imports, &numbers, &[k as u16]);
                    found.extend(judged(&file, number));
                }
            }
        }
    }
    found
}

/// Package numbers past the imports, called or not, beside calls of each import.
pub fn past() -> Vec<Case> {
    let aids: Vec<[u8; 6]> = (0..MAX_IMPORTS as u8).map(numbered).collect();
    let loads = aids
        .iter()
        .map(|aid| case(load(&imported(aid, For::Every)), 0));
    let mut found: Vec<Case> = loads.collect();
    for count in [0, 1, 2, 14, 15] {
        let imports: Vec<&[u8]> = aids[..count].iter().map(|aid| &aid[..]).collect();
        let all: Vec<u16> = (0..count as u16).collect();
        for past in [count as u8 + 1, 16, 17, 31, 32, 128, 240, 241, 255] {
            let mut numbers: Vec<u8> = (1..=count as u8).collect();
            numbers.push(past);
            found.extend(judged(&importing(&imports, &numbers, &all), 0));
            let with = [&all[..], &[count as u16]].concat();
            found.extend(judged(&importing(&imports, &numbers, &with), 18));
            found.extend(judged(&importing(&imports, &numbers, &[count as u16]), 18));
        }
    }
    found
}

/// The calls of cases in a store of this length, after either fresh.
pub(super) fn after_both(length: usize, cases: Vec<Case>) -> [Sequence; 2] {
    let calls: Vec<Call> = cases.into_iter().map(|case| case.call).collect();
    let firsts = [Call::Fresh, Call::FreshLimits(Limits::GREATEST)];
    firsts.map(|first| after(first, length, calls.clone()))
}

/// The cases of each kind.
pub fn groups() -> [Vec<Case>; 4] {
    [pairs(), fifteen(), repeated(), past()]
}

/// All of them as sequences.
pub fn sequences() -> Vec<Sequence> {
    let groups = groups().into_iter();
    groups.flat_map(|cases| after_both(4096, cases)).collect()
}
