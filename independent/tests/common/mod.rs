//! Short ways to write packages and stores in tests.
#![allow(dead_code)]

pub mod calls;
pub mod misread;

use independent::generate::model::{ClassModel, FileModel, MethodModel};
use independent::ledger::{Call, Ledger};
use independent::limits::Limits;
use independent::loader::{damage, Independent, Loader, Sequence, Step};
use independent::operations::{create, create_without_int, fresh, fresh_limits, load};

pub const D1: &[u8] = &[0xA0, 0, 0, 0, 0xD1];
pub const D2: &[u8] = &[0xA0, 0, 0, 0, 0xD2];
pub const D3: &[u8] = &[0xA0, 0, 0, 0, 0xD3];
pub const P1: &[u8] = &[0xA0, 0, 0, 1, 1];
pub const P2: &[u8] = &[0xA0, 0, 0, 1, 2];
pub const P3: &[u8] = &[0xA0, 0, 0, 1, 3];

pub const VISIBLE: u8 = 0x80;
pub const BODY: u8 = 0x40;
pub const STATIC: u8 = 0x60;

/// A fresh store with domains D1 and D2.
pub fn store(length: usize) -> Vec<u8> {
    let mut store = vec![0xEE; length];
    assert_eq!(fresh(&mut store).number, 0);
    for domain in [D1, D2] {
        assert_eq!(create(&mut store, domain).number, 0);
    }
    store
}

/// The same with D3, which is without int.
pub fn store_of_both(length: usize) -> Vec<u8> {
    let mut store = store(length);
    assert_eq!(create_without_int(&mut store, D3).number, 0);
    store
}

/// A store of version 2 with D1 and these limits.
pub fn limited(limits: Limits) -> Vec<u8> {
    let mut store = vec![0xEE; 65_535];
    assert_eq!(fresh_limits(&mut store, limits).encoded(), 0);
    assert_eq!(create(&mut store, D1).number, 0);
    store
}

/// A package with domains D1 and D2 in its list.
pub fn package(aid: &[u8], classes: Vec<ClassModel>) -> FileModel {
    FileModel {
        aid: aid.to_vec(),
        domains: vec![D1.to_vec(), D2.to_vec()],
        classes,
        ..FileModel::default()
    }
}

pub fn importing(mut model: FileModel, imports: &[&[u8]]) -> FileModel {
    model.imports = imports.iter().map(|aid| aid.to_vec()).collect();
    model
}

pub fn class(parents: &[(u8, u8)], methods: Vec<MethodModel>) -> ClassModel {
    ClassModel::new(0, parents, methods)
}

pub fn interface(parents: &[(u8, u8)], methods: Vec<MethodModel>) -> ClassModel {
    ClassModel::new(1, parents, methods)
}

/// A package of interfaces, each with these parents.
pub fn interfaces(aid: &[u8], parents: &[&[(u8, u8)]]) -> FileModel {
    let classes = parents.iter().map(|p| interface(p, vec![])).collect();
    package(aid, classes)
}

/// A method; one with a body returns at once.
pub fn method(bits: u8, name: u16, allowed: Option<&[u8]>) -> MethodModel {
    MethodModel::new(bits, name, allowed, &[0x7A])
}

pub fn coded(bits: u8, name: u16, allowed: Option<&[u8]>, code: &[u8]) -> MethodModel {
    MethodModel::new(bits, name, allowed, code)
}

/// The number of a load in D1 over a fresh store with D1 and D2.
pub fn judged(model: &FileModel) -> u8 {
    judged_after(&[], model)
}

/// The same with packages loaded before, in D1.
pub fn judged_after(earlier: &[FileModel], model: &FileModel) -> u8 {
    load(&mut store_with(earlier), D1, &model.bytes()).number
}

/// A store with domains D1 and D2 and these packages, loaded in D1.
pub fn store_with(packages: &[FileModel]) -> Vec<u8> {
    let mut store = store(65_535);
    for package in packages {
        assert_eq!(load(&mut store, D1, &package.bytes()).number, 0);
    }
    store
}

/// A package whose only method has this code.
pub fn with_code(code: &[u8]) -> FileModel {
    package(
        P1,
        vec![class(&[], vec![coded(STATIC, 1, Some(&[]), code)])],
    )
}

/// Runs a sequence; each call is handed over with its answer and the store that it left.
pub fn replay(sequence: &Sequence, mut each: impl FnMut(&Call, u32, &[u8])) {
    let mut store = sequence.start.clone();
    for step in &sequence.steps {
        match step {
            Step::Damage { place, bits } => damage(&mut store, *place, *bits),
            Step::Call(call) => {
                let answer = Independent.call(&mut store, call);
                each(call, answer, &store);
            }
        }
    }
}

/// The answers of a sequence; the ledger follows where it may.
pub fn answers(sequence: &Sequence) -> Vec<u32> {
    let length = sequence.start.len();
    let mut ledger = sequence.has_ledger().then(|| Ledger::new(length));
    let mut found = Vec::new();
    replay(sequence, |call, answer, store| {
        if let Some(ledger) = &mut ledger {
            assert_eq!(answer, ledger.call(call).encoded());
            assert!(store == ledger.written_out(length));
        }
        found.push(answer);
    });
    found
}

/// The numbers of a sequence.
pub fn numbers(sequence: &Sequence) -> Vec<u32> {
    answers(sequence).into_iter().map(|a| a & 0xFF).collect()
}

/// The numbers of a list of hexadecimal numbers and ranges.
pub fn listed(list: &str) -> impl Iterator<Item = usize> + '_ {
    let number = |text: &str| usize::from_str_radix(text, 16).unwrap();
    list.split(", ").flat_map(move |range| {
        let (first, last) = range.split_once('-').unwrap_or((range, range));
        number(first)..=number(last)
    })
}
