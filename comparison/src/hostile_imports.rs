//! Hostile stores of imports behind hundreds of packages with AIDs that differ late.

use crate::hostile::{aid, filled, long, packed, start, workload, LARGEST};
use crate::hostile::{IMPORTS_CALLED, IMPORTS_LOADED};
use crate::ordinary::domain;
use crate::workloads::{used, Workload};
use independent::generate::model::{ClassModel, FileModel, MethodModel};
use independent::ledger::{Call, Entry};
use independent::package::{MAX_IMPORTS, MAX_REFERENCES};

/// The bytes that one caller takes, and what the packages before the callers may take.
const CALLER: usize = 8_000;
const HALF: usize = LARGEST / 2;

/// Both of them, in the order of the table.
pub(crate) fn with_imports() -> [Workload; 2] {
    let called = filled(behind(HALF), LARGEST, |number| packed(caller(number)));
    let before = behind(LARGEST - CALLER);
    let file = caller(0).bytes();
    assert!(used(&before) + 12 + file.len() <= LARGEST);
    let domain = domain(0);
    [
        workload(IMPORTS_CALLED, &called, LARGEST),
        Workload {
            call: Call::Load { domain, file },
            number: 0,
            ..workload(IMPORTS_LOADED, &before, LARGEST)
        },
    ]
}

/// As many smallest packages as these bytes hold, then those that callers import.
fn behind(bytes: usize) -> Vec<Entry> {
    let imported: Vec<Entry> = (0..MAX_IMPORTS).map(|k| packed(imported(k))).collect();
    let room = bytes - (used(&imported) - used(&[]));
    let smallest = |k: usize| FileModel {
        aid: long(1_000 + k),
        ..FileModel::default()
    };
    let mut entries = filled(start(), room, |k| packed(smallest(k)));
    entries.extend(imported);
    entries
}

/// An imported package, of one method that everyone may call.
fn imported(number: usize) -> FileModel {
    let method = MethodModel::new(0xE0, 1, None, &[0x7A]);
    FileModel {
        aid: long(number),
        classes: vec![ClassModel::new(0, &[], vec![method])],
        ..FileModel::default()
    }
}

/// A package whose references name the imports by turns, each called.
fn caller(number: usize) -> FileModel {
    let references = 0..MAX_REFERENCES as u16;
    let call = |index: u16| [&[0x8D][..], &index.to_be_bytes()].concat();
    let code: Vec<u8> = references.clone().flat_map(call).chain([0x7A]).collect();
    let method = MethodModel::new(0xE0, 1, Some(&[]), &code);
    let turn = |k: u16| 1 + (k % MAX_IMPORTS as u16) as u8;
    FileModel {
        aid: aid(10_000 + number),
        imports: (0..MAX_IMPORTS).map(long).collect(),
        references: references.map(|k| (turn(k), 0, 1)).collect(),
        classes: vec![ClassModel::new(0, &[], vec![method])],
        ..FileModel::default()
    }
}
