//! Counts of loads whose answers hang on the kind of a domain and on barred instructions.

use crate::contents::Contents;
use crate::int_counts::{IntCounts, Shape};
use crate::load_questions::{q13, q16, q18, Code};
use crate::misread_int::IntMisreading;
use crate::misreadings::Misreading;
use crate::operations::asked;
use crate::package::{self, Package, Version};
use crate::questions::{judge_load, q2};
use crate::store::StoreVersion;
use crate::without_int::{barred_at, has_barred, q26, DomainKind, TYPED};
use std::collections::BTreeSet;
use IntMisreading::*;

/// A load into a domain that is there; the store is as the load left it.
pub(crate) struct Load<'a> {
    pub kind: DomainKind,
    pub domain: &'a [u8],
    pub file: &'a [u8],
    pub number: u8,
    pub store: &'a [u8],
}

impl IntCounts {
    pub(crate) fn note_load(&mut self, load: &Load) {
        let kind = load.kind;
        if kind == DomainKind::WithoutInt {
            self.tell(LoadsFirst);
        }
        let version = StoreVersion::of(load.store).unwrap_or_default();
        let read = package::read(load.file, version.limits());
        let Some(package) = read.filter(|_| matches!(load.number, 0 | 16..=26)) else {
            return;
        };
        if matches!(load.number, 16 | 17 | 24) {
            let another = |m: IntMisreading| m.judge_codes(&package, kind).err();
            let among = [Before17, Before24, MethodByMethod];
            self.tell_where(&among, |m| another(m) != Some(load.number));
            return;
        }
        let codes = q16(&package).unwrap_or_default();
        match (load.number, kind) {
            (26, _) => self.note_refused(load, &codes),
            (_, DomainKind::WithoutInt) => self.note_passed(&codes),
            _ => self.tell_where(&[EveryDomain], |m| !m.keeps(kind, &codes)),
        }
        if load.number == 0 {
            self.note_accepted(kind, version, &package, &codes);
            if !package.imports.is_empty() {
                self.note_imports(load, &package, &codes);
            }
        }
    }

    /// Counts the readings by which an instruction of codes that pass 26 is barred.
    fn note_passed(&mut self, codes: &[Code]) {
        let bars = |m: IntMisreading| !m.keeps(DomainKind::WithoutInt, codes);
        self.tell_where(&IntMisreading::ALL, bars);
        for opcode in opcodes(codes, |code, at| !TYPED.contains(&code[at])) {
            self.opcodes[usize::from(opcode)] += 1;
        }
    }

    /// Counts the readings that would not have answered 26.
    fn note_refused(&mut self, load: &Load, codes: &[Code]) {
        let among = [DeadPassed, LastPassed, FirstCode, NotAsked];
        self.tell_where(&among, |m| m.keeps(load.kind, codes));
        let barred = opcodes(codes, barred_at);
        if let (1, Some(&opcode)) = (barred.len(), barred.first()) {
            self.opcodes[usize::from(opcode)] += 1;
        }
        self.tell_where(&[After18, With18, KindOfImport], |m| {
            q2(load.store).is_some_and(|mut contents| {
                contents.misreading = Some(Misreading::WithoutInt(m));
                let room = asked::room(load.store);
                judge_load(&mut contents, room, load.domain, load.file) != Err(26)
            })
        });
    }

    fn note_accepted(
        &mut self,
        kind: DomainKind,
        store: StoreVersion,
        package: &Package,
        codes: &[Code],
    ) {
        if kind == DomainKind::WithoutInt {
            let second = usize::from(store != StoreVersion::First);
            let place = 2 * second + usize::from(package.version == Version::Second);
            self.shapes[Shape::Loaded as usize + place] += 1;
        } else if !q26(codes) {
            self.add(Shape::LoadedWithInt);
        }
    }

    /// Counts what an accepted load imports, and the readings that look at that.
    fn note_imports(&mut self, load: &Load, package: &Package, codes: &[Code]) {
        let contents = q2(load.store).expect("an accepted load leaves a sound store");
        let imports = q13(&contents, package).unwrap_or_default();
        let barred = |&import: &usize| has_barred(&contents.packages[import].package);
        match load.kind {
            DomainKind::WithInt if !q26(codes) => {
                self.tell_where(&[OfImporters, KindOfImport], |m| {
                    let wrong = Misreading::WithoutInt(m);
                    wrong.kind_by_imports(&contents, load.kind, &imports) != load.kind
                });
            }
            DomainKind::WithoutInt if imports.iter().any(barred) => {
                self.tell(OfImports);
                if calls_barred(&contents, codes) {
                    self.add(Shape::CallsWithInt);
                }
            }
            _ => {}
        }
    }
}

/// The opcodes of the instructions of which this holds.
fn opcodes(codes: &[Code], holds: impl Fn(&[u8], usize) -> bool) -> BTreeSet<u8> {
    let mut found = BTreeSet::new();
    for code in codes {
        let starts = code.starts.iter().filter(|&&at| holds(code.bytes, at));
        found.extend(starts.map(|&at| code.bytes[at]));
    }
    found
}

/// Do the codes of the package installed last call one with a barred instruction?
fn calls_barred(contents: &Contents, codes: &[Code]) -> bool {
    let judged = contents.packages.len() - 1;
    let calls = q18(contents, judged, codes).unwrap_or_default();
    let mut called = calls.iter().map(|call| call.meant.declared.class.package);
    called.any(|package| has_barred(&contents.packages[package].package))
}
