//! Fixed sequences of version 2: every handler of short codes, faults of two methods in
//! every way, two packages of either version.

use super::faults::{add_code, BARE, RETURN, STATIC_BODY};
use super::handler_limits::{handler_limits, CODE};
use super::model::{ClassModel, FileModel, MethodModel};
use super::own_pairs::{first, second, List, Meeting, HOMES, MEETINGS};
use super::special::{after_fresh, load, DOMAIN, FIRST, SECOND};
use crate::handlers::Handler;
use crate::ledger::Call;
use crate::loader::Sequence;
use crate::package::{Version, IMPLEMENTED};
use crate::policy::OWN;

/// Codes of which every handler is tried: instructions of one byte, of two and three, a
/// short switch as the last instruction, a branch back.
pub const CODES: [&[u8]; 6] = [
    RETURN,
    &[0x00, 0x7A],
    &[0x10, 0x7A, 0x7A],
    &[0x70, 0x00],
    &[0x00, 0x75, 0x00, 0x00, 0x00, 0x00],
    CODE,
];

/// A file of version 2 with this code and this handler.
pub fn with_handler(code: &[u8], handler: Handler) -> FileModel {
    let method = MethodModel::new(STATIC_BODY, 1, Some(&[]), code).handled(&[handler]);
    FileModel {
        version: Version::Second,
        aid: FIRST.to_vec(),
        classes: vec![ClassModel::new(0, &[], vec![method])],
        ..FileModel::default()
    }
}

/// Every handler of a code whose offsets pass its length by two at most.
pub fn every_handler(code: &[u8]) -> Vec<Handler> {
    let offsets = || 0..=code.len() as u16 + 2;
    let ranges = offsets().flat_map(|start| offsets().map(move |end| (start, end)));
    ranges
        .flat_map(|(start, end)| offsets().map(move |target| Handler::new(start, end, target)))
        .collect()
}

/// A load and a removal for each handler of each of the codes.
pub fn handlers_of_codes() -> Vec<Sequence> {
    let sequence = |code: &&[u8]| {
        let handlers = every_handler(code).into_iter();
        let files = handlers.map(|handler| load(&with_handler(code, handler)));
        after_fresh(128, with_removals(files))
    };
    CODES.iter().map(sequence).collect()
}

fn with_removals(loads: impl Iterator<Item = Call>) -> Vec<Call> {
    loads
        .flat_map(|load| [load, Call::Remove(FIRST.to_vec())])
        .collect()
}

/// Versions and handlers on both sides of each edge.
pub fn limits() -> Sequence {
    let files = handler_limits(FIRST).into_iter();
    let loads = files.map(|limit| Call::Load {
        domain: DOMAIN.to_vec(),
        file: limit.file,
    });
    after_fresh(8192, with_removals(loads))
}

/// The questions of a code that two methods get a fault for, and 0 for none.
pub const FAULTS: [u8; 6] = [0, 16, 17, 24, 18, 19];

/// A file of version 2 whose first method may not be called; then a method for each of
/// these faults.
pub fn with_code_faults(faults: &[u8]) -> FileModel {
    let mut model = with_handler(RETURN, Handler::new(0, 1, 0));
    model.references = vec![(0, 0, 1)];
    for fault in faults {
        let (code, handler): (&[u8], _) = match fault {
            16 => (&[0x00], Handler::new(0, 1, 0)),
            17 => (&[0x70, 0x01], Handler::new(0, 2, 0)),
            24 => (&[0x10, 0x00, 0x7A], Handler::new(0, 3, 1)),
            26 => (&[0x0A, 0x7A], Handler::new(0, 1, 1)),
            18 => (&[0x8D, 0, 1, 0x7A], Handler::new(0, 3, 3)),
            19 => (&[0x8D, 0, 0, 0x7A], Handler::new(3, 4, 0)),
            _ => (RETURN, Handler::new(0, 1, 0)),
        };
        add_code(&mut model, code);
        if let Some(class) = model.classes.last_mut() {
            class.methods[0].handlers.push(handler);
        }
    }
    model
}

/// Two methods with a fault each or none, in every way.
pub fn orders() -> Sequence {
    let pairs = FAULTS.iter().flat_map(|&a| FAULTS.map(|b| [a, b]));
    let loads = pairs.map(|faults| load(&with_code_faults(&faults)));
    after_fresh(256, with_removals(loads))
}

/// Makes a file one of this version; in the second every code is within a handler's range,
/// and every instruction of the short codes here is a target.
pub fn of_version(version: Version, mut model: FileModel) -> FileModel {
    model.version = version;
    let methods = model
        .classes
        .iter_mut()
        .flat_map(|class| &mut class.methods);
    for method in methods.filter(|m| m.bits & IMPLEMENTED != 0) {
        let length = method.code.len() as u16;
        let last = length.saturating_sub(1);
        method.handlers = vec![
            Handler::new(0, length, 0),
            Handler::new(last, length, last),
            Handler::new(0, length, last),
        ];
    }
    model
}

const LISTS: [List; 4] = [None, Some(&[]), Some(&[0, 1]), Some(&[OWN])];

/// A package of either version meets one of either version, in one domain or two.
pub fn version_pairs() -> Vec<Sequence> {
    let mut sequences = Vec::new();
    for [above, below] in every_two(Version::BOTH) {
        for list in LISTS {
            let mut calls = Vec::new();
            for meeting in MEETINGS {
                for [own, home] in every_two([0, 1]) {
                    calls.push(load(&of_version(above, first(list))));
                    calls.extend(meet(below, meeting, LISTS[2 + own], HOMES[home]));
                }
            }
            sequences.push(after_fresh(512, calls));
        }
    }
    sequences
}

pub(super) fn every_two<T: Copy>(two: [T; 2]) -> [[T; 2]; 4] {
    let [a, b] = two;
    [[a, a], [a, b], [b, a], [b, b]]
}

/// The second package is loaded; where it is there, the first one cannot be removed.
fn meet(version: Version, meeting: Meeting, list: List, home: &[u8]) -> [Call; 3] {
    let domain = home.to_vec();
    let file = of_version(version, second(meeting, list)).bytes();
    [
        Call::Load { domain, file },
        Call::Remove(FIRST.to_vec()),
        Call::Remove(SECOND.to_vec()),
    ]
}

/// A file of version 2 with methods without a code before, between and after codes.
pub fn among_bare(aid: &[u8]) -> FileModel {
    let bare = |name| MethodModel::new(BARE, name, None, &[]);
    let coded = |name| MethodModel::new(STATIC_BODY, name, None, CODE);
    let methods = vec![bare(1), coded(2), bare(3), bare(4), coded(5), bare(6)];
    let model = FileModel {
        aid: aid.to_vec(),
        classes: vec![ClassModel::new(0, &[], methods)],
        ..FileModel::default()
    };
    of_version(Version::Second, model)
}
