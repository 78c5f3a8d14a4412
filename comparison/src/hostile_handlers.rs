//! Hostile stores of version 2: question 24 is asked of as many handlers as fit.

use crate::hostile::SHORT_HANDLERS;
use crate::hostile::{aid, filled, packed, start, workload, LARGEST};
use crate::ordinary::of_codes;
use crate::ordinary_handlers::second;
use crate::ordinary_limits::entries_of;
use crate::workloads::{used, Workload};
use independent::generate::limits::plain_code;
use independent::generate::model::{ClassModel, FileModel, MethodModel};
use independent::handlers::{Handler, MAX_HANDLERS};
use independent::ledger::Entry;
use independent::limits::STANDARD_CODE;
use independent::package::Version;

/// The most methods of a class.
const METHODS: u16 = 64;

/// A package of one class with these methods.
fn one_class(number: usize, methods: Vec<MethodModel>) -> FileModel {
    FileModel {
        version: Version::Second,
        aid: aid(1 + number),
        classes: vec![ClassModel::new(0, &[], methods)],
        ..FileModel::default()
    }
}

/// Codes of one byte, 64 in a package; then packages of one method.
pub(crate) fn short_codes() -> Workload {
    let handlers = [Handler::new(0, 1, 0); MAX_HANDLERS];
    let method = |name| MethodModel::new(0xE0, name, None, &[0x7A]).handled(&handlers);
    let package = |number, count: u16| packed(one_class(number, (0..count).map(method).collect()));
    let entries = filled(start(), LARGEST, |number| package(number, METHODS));
    let large = entries.len();
    let entries = filled(entries, LARGEST, |number| package(large + number, 1));
    workload(SHORT_HANDLERS, &entries, LARGEST)
}

/// The longest codes, one in a package: of instructions of one byte with handlers at their
/// ends, or of any instructions with handlers anywhere.
pub(crate) fn long_codes(name: &'static str, any: bool) -> Workload {
    let entries = filled(start(), LARGEST, |number| {
        packed(match any {
            true => any_code(number),
            false => one_byte_code(number, STANDARD_CODE as u16),
        })
    });
    workload(name, &entries, LARGEST)
}

/// A code of this length of instructions of one byte, with handlers at its end.
pub(crate) fn one_byte_code(number: usize, length: u16) -> FileModel {
    let code = plain_code(length.into());
    let last = length - 1;
    let handlers: Vec<Handler> = (0..MAX_HANDLERS as u16)
        .map(|k| Handler::new(last - k, length, last - k))
        .collect();
    let method = MethodModel::new(0xE0, 1, None, &code).handled(&handlers);
    one_class(number, vec![method])
}

fn any_code(number: usize) -> FileModel {
    let mut model = of_codes(number, 1, STANDARD_CODE - 200);
    model.aid = aid(1 + number);
    second(model, |_| MAX_HANDLERS)
}

/// The packages of a hostile store in version 2, so many handlers a code; as many as fit.
pub(crate) fn in_second(name: &'static str, of: &Workload, handlers: usize) -> Workload {
    let mut entries: Vec<Entry> = Vec::new();
    for entry in entries_of(&of.store) {
        entries.push(match entry {
            Entry::Domain(..) => entry,
            Entry::Package { domain, file } => {
                let model = FileModel::read(&file).expect("a file that reads");
                let file = second(model, |_| handlers).bytes();
                Entry::Package { domain, file }
            }
        });
        if used(&entries) > LARGEST {
            entries.pop();
            break;
        }
    }
    workload(name, &entries, LARGEST)
}
