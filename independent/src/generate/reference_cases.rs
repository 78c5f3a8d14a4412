//! Fixed sequences of files with many references: one of them, of every number near a power of
//! two, or two of them, name what the others do not, and all are called.

use super::faults::{RETURN, STATIC_BODY};
use super::model::{ClassModel, FileModel, MethodModel};
use super::special::{after, load, FIRST, SECOND};
use crate::ledger::Call;
use crate::limits::Limits;
use crate::loader::Sequence;
use crate::package::VISIBLE;

/// How many references the files have.
const COUNTS: [u16; 9] = [1, 31, 32, 33, 63, 64, 65, 97, 130];

/// A name of the class that is named.
#[derive(Clone, Copy, PartialEq, Eq)]
pub enum Name {
    /// Its own method, that of the class above it: for every domain.
    Own = 1,
    Above = 2,
    /// The same, for no domain.
    OwnClosed = 3,
    AboveClosed = 4,
    /// No class declares it.
    Missing = 5,
}

/// The number that a call of it is answered.
pub fn answer(name: Name) -> u32 {
    match name {
        Name::Own | Name::Above => 0,
        Name::OwnClosed | Name::AboveClosed => 19,
        Name::Missing => 18,
    }
}

/// A class with methods for every domain and for none, and one below it.
fn named() -> FileModel {
    let method = |name: Name| {
        let closed = matches!(name, Name::OwnClosed | Name::AboveClosed);
        let nobody: Option<&[u8]> = closed.then_some(&[]);
        MethodModel::new(VISIBLE | STATIC_BODY, name as u16, nobody, RETURN)
    };
    let classes = vec![
        ClassModel::new(
            0,
            &[],
            [Name::Above, Name::AboveClosed].map(method).to_vec(),
        ),
        ClassModel::new(
            0,
            &[(0, 0)],
            [Name::Own, Name::OwnClosed].map(method).to_vec(),
        ),
    ];
    FileModel {
        aid: FIRST.to_vec(),
        classes,
        ..FileModel::default()
    }
}

/// References to these names, and a code that calls those of these numbers.
fn calling(names: &[Name], called: impl Iterator<Item = u16>) -> FileModel {
    let call = |index: u16| [&[0x8D][..], &index.to_be_bytes()].concat();
    let code: Vec<u8> = called.flat_map(call).chain([0x7A]).collect();
    let method = MethodModel::new(STATIC_BODY, 1, Some(&[]), &code);
    FileModel {
        aid: SECOND.to_vec(),
        imports: vec![FIRST.to_vec()],
        references: names.iter().map(|&name| (1, 1, name as u16)).collect(),
        classes: vec![ClassModel::new(0, &[], vec![method])],
        ..FileModel::default()
    }
}

/// A file, and the number that its load is answered.
pub struct Case {
    pub file: FileModel,
    pub number: u32,
}

/// The numbers of references at which something else may begin.
fn edges(count: u16) -> impl Iterator<Item = u16> {
    let near = [
        0, 1, 15, 16, 30, 31, 32, 33, 62, 63, 64, 65, 95, 96, 127, 128,
    ];
    near.into_iter()
        .chain([count - 1])
        .filter(move |&k| k < count)
}

/// Every case.
pub fn cases() -> Vec<Case> {
    let mut found = Vec::new();
    for count in COUNTS {
        let plain = |k: u16| [Name::Own, Name::Above][usize::from(k % 2)];
        let names: Vec<Name> = (0..count).map(plain).collect();
        for at in edges(count) {
            for name in [Name::OwnClosed, Name::AboveClosed, Name::Missing] {
                let mut names = names.clone();
                names[usize::from(at)] = name;
                // All called; all but it; it alone.
                let others = (0..count).filter(|&k| k != at);
                let called = [
                    (calling(&names, 0..count), answer(name)),
                    (calling(&names, others), 0),
                    (calling(&names, at..=at), answer(name)),
                ];
                found.extend(called.map(|(file, number)| Case { file, number }));
                // 19 in front of 18 or behind it: 18 is asked first.
                for other in edges(count).filter(|&other| other != at) {
                    let mut names = names.clone();
                    names[usize::from(other)] = Name::Missing;
                    let file = calling(&names, 0..count);
                    found.push(Case { file, number: 18 });
                }
            }
        }
        // References that the file does not have.
        for past in [count, count + 31, count + 32, 0xFFFF] {
            let file = calling(&names, (0..count).chain([past]));
            found.push(Case { file, number: 18 });
        }
    }
    found
}

/// Each of them loaded, and removed if it was accepted, after either fresh.
pub fn many() -> Vec<Sequence> {
    let mut calls = vec![load(&named())];
    for case in cases() {
        calls.push(load(&case.file));
        if case.number == 0 {
            calls.push(Call::Remove(SECOND.to_vec()));
        }
    }
    let firsts = [Call::Fresh, Call::FreshLimits(Limits::GREATEST)];
    firsts.map(|first| after(first, 4096, calls.clone())).into()
}
