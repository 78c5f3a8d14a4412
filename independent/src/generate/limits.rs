//! Files at each limit and one past it, and large files that cost time to judge.

use super::model::{ClassModel, FileModel, MethodModel};
use crate::limits::{Limits, STANDARD_CODE};
use crate::package::{MAX_CLASSES, MAX_DOMAINS, MAX_IMPORTS, MAX_METHODS, MAX_REFERENCES};
use crate::policy::{EVERY, MAX_ALLOWED};

/// A file, its name and the number that a load with room for it answers.
pub struct LimitFile {
    pub name: &'static str,
    pub number: u8,
    pub model: FileModel,
}

fn method(bits: u8, name: u16, allowed: Option<&[u8]>, code_length: usize) -> MethodModel {
    MethodModel::new(bits, name, allowed, &plain_code(code_length))
}

/// A code of so many instructions of one byte.
pub fn plain_code(length: usize) -> Vec<u8> {
    let mut code = vec![0; length];
    if let Some(last) = code.last_mut() {
        *last = 0x7A;
    }
    code
}

/// Every limit outside methods at its value and one past it, parents by the standard
/// limits; depth has `chain` below.
/// `import` is the AID of an installed package.
pub fn count_limits(aid: &[u8], domain: &[u8], import: Option<&[u8]>) -> Vec<LimitFile> {
    let mut files = Vec::new();
    for (past, number) in [(0, 0), (1, 11)] {
        let mut models = list_limits(aid, domain, past);
        models.extend(class_limits(aid, past));
        if let Some(import) = import {
            let imports = vec![import.to_vec(); MAX_IMPORTS + past];
            models.push(("imports", changed(aid, |m| m.imports = imports)));
        }
        files.extend(models.into_iter().map(|(name, model)| LimitFile {
            name,
            number,
            model,
        }));
    }
    files
}

/// An empty package with one change.
fn changed(aid: &[u8], change: impl FnOnce(&mut FileModel)) -> FileModel {
    let mut model = FileModel {
        aid: aid.to_vec(),
        ..FileModel::default()
    };
    change(&mut model);
    model
}

/// The counts of lists and the lengths of AIDs, this much past their limits.
fn list_limits(aid: &[u8], domain: &[u8], past: usize) -> Vec<(&'static str, FileModel)> {
    let domains = vec![domain.to_vec(); MAX_DOMAINS + past];
    let references = vec![(9, 9, 9); MAX_REFERENCES + past];
    let (short, long) = (vec![7; 5 - past], vec![7; 16 + past]);
    let own = |length: usize| changed(aid, |m| m.aid.resize(length, 0xA5));
    vec![
        ("domains", changed(aid, |m| m.domains = domains)),
        ("references", changed(aid, |m| m.references = references)),
        ("package AID short", own(5 - past)),
        ("package AID long", own(16 + past)),
        (
            "domain AID short",
            changed(aid, |m| m.domains = vec![short]),
        ),
        ("domain AID long", changed(aid, |m| m.domains = vec![long])),
    ]
}

/// The counts and the kind of a class, this much past their limits.
fn class_limits(aid: &[u8], past: usize) -> Vec<(&'static str, FileModel)> {
    let classes = vec![ClassModel::default(); MAX_CLASSES + past];
    let parents = vec![(0, 0); usize::from(Limits::STANDARD.parents) + past];
    let parents = vec![
        ClassModel::new(1, &[], vec![]),
        ClassModel::new(0, &parents, vec![]),
    ];
    let names = 0..(MAX_METHODS + past) as u16;
    let methods = names.map(|name| method(0x40, name, None, 1)).collect();
    let methods = vec![ClassModel::new(0, &[], methods)];
    let kind = vec![ClassModel::new(1 + past as u8, &[], vec![])];
    vec![
        ("classes", changed(aid, |m| m.classes = classes)),
        ("parents", changed(aid, |m| m.classes = parents)),
        ("methods", changed(aid, |m| m.classes = methods)),
        ("kind", changed(aid, |m| m.classes = kind)),
    ]
}

/// The limits of a method: its code, its allowed count, its indexes, its bits.
pub fn method_limits(aid: &[u8], domain: &[u8]) -> Vec<LimitFile> {
    let indexes = |count: usize| vec![0; count];
    let cases: [(&str, u8, MethodModel); 12] = [
        ("code", 11, method(0x40, 1, None, 0)),
        ("code", 0, method(0x40, 1, None, 1)),
        ("code", 0, method(0x40, 1, None, STANDARD_CODE)),
        ("code", 11, method(0x40, 1, None, STANDARD_CODE + 1)),
        (
            "allowed",
            0,
            method(0x40, 1, Some(&indexes(MAX_ALLOWED)), 1),
        ),
        (
            "allowed",
            11,
            method(0x40, 1, Some(&indexes(MAX_ALLOWED + 1)), 1),
        ),
        (
            "allowed",
            11,
            method(0x40, 1, Some(&indexes(usize::from(EVERY) - 1)), 1),
        ),
        ("index", 0, method(0, 1, Some(&[1]), 0)),
        ("index", 11, method(0, 1, Some(&[2]), 0)),
        ("bits", 0, method(0xE0, 1, None, 1)),
        ("bits", 11, method(0x10, 1, None, 1)),
        ("bits", 11, method(0x01, 1, None, 1)),
    ];
    let build = |(name, number, method): (&'static str, u8, MethodModel)| LimitFile {
        name,
        number,
        model: FileModel {
            aid: aid.to_vec(),
            domains: vec![domain.to_vec(); 2],
            classes: vec![ClassModel::new(0, &[], vec![method])],
            ..FileModel::default()
        },
    };
    cases.into_iter().map(build).collect()
}

/// A chain of classes of one kind, each the parent of the next; depth 9 is past the limit.
pub fn chain(aid: &[u8], kind: u8, depth: u8) -> FileModel {
    let class = |number: u8| match number {
        0 => ClassModel::new(kind, &[], vec![]),
        _ => ClassModel::new(kind, &[(0, number - 1)], vec![]),
    };
    FileModel {
        aid: aid.to_vec(),
        classes: (0..depth).map(class).collect(),
        ..FileModel::default()
    }
}

/// Eight levels of four interfaces, each with the four of the level above as
/// parents; the last class is kind 0 when asked. Each class has this many methods.
pub fn ladder(aid: &[u8], methods: u16, last_is_class: bool) -> FileModel {
    let declared = |bits: u8| -> Vec<MethodModel> {
        let names = 0..methods;
        names.map(|name| method(bits, name, None, 1)).collect()
    };
    let class = |number: u8| {
        let level = number / 4;
        let above = |k: u8| (0, 4 * (level - 1) + k);
        let parents: Vec<(u8, u8)> = match level {
            0 => Vec::new(),
            _ => (0..4).map(above).collect(),
        };
        if number == 31 && last_is_class {
            ClassModel::new(0, &parents, declared(0xC0))
        } else {
            ClassModel::new(1, &parents, declared(0x80))
        }
    };
    FileModel {
        aid: aid.to_vec(),
        classes: (0..32).map(class).collect(),
        ..FileModel::default()
    }
}

/// Interfaces that all have class 0 to 3 of an imported ladder's last level as
/// parents, which is past the depth limit, or of the level above it.
pub fn under_ladder(aid: &[u8], ladder: &[u8], past: bool) -> FileModel {
    let first = if past { 28 } else { 24 };
    let parents: Vec<(u8, u8)> = (first..first + 4).map(|class| (1, class)).collect();
    FileModel {
        aid: aid.to_vec(),
        imports: vec![ladder.to_vec()],
        classes: vec![ClassModel::new(1, &parents, vec![]); 32],
        ..FileModel::default()
    }
}

/// An interface below an imported ladder, as above, and a method that calls this name of it so
/// many times, each by a reference of its own.
pub fn calling_ladder(aid: &[u8], ladder: &[u8], count: u16, name: u16) -> FileModel {
    let mut model = under_ladder(aid, ladder, false);
    model.classes.truncate(1);
    let call = |index: u16| {
        let [high, low] = index.to_be_bytes();
        [0x8E, 0, high, low, 0]
    };
    let code: Vec<u8> = (0..count).flat_map(call).chain([0x7A]).collect();
    model.references = vec![(0, 0, name); count.into()];
    let caller = MethodModel::new(0xE0, 1, Some(&[]), &code);
    model.classes.push(ClassModel::new(0, &[], vec![caller]));
    model
}
