//! Counts of answers that hang on the version of a file and on its handlers.

use crate::code;
use crate::ledger::Call;
use crate::limits::Limits;
use crate::load_questions::{q10, q11, q16, Code};
use crate::misreadings::Misreading;
use crate::operations::asked;
use crate::package::{self, Reading, Version};
use crate::questions::{judge_codes, judge_load, q2, q2_by};
use crate::store::StoreVersion;
use crate::without_int::DomainKind;
use std::fmt;

/// Loads that are counted by what their files have.
#[derive(Clone, Copy)]
enum Shape {
    Handlers,
    CallInRange,
    FirstImportsSecond,
    SecondImportsFirst,
    Version0101,
    Version0102,
}

const SHAPES: [&str; 6] = [
    "loads with handlers were accepted",
    "loads with a call in a handler's range were accepted",
    "loads of version 1 that import version 2 were accepted",
    "loads of version 2 that import version 1 were accepted",
    "loads of version 0101 were refused",
    "loads of version 0102 were refused",
];

/// For each wrong reading, how many answers it would have changed; and the shapes.
#[derive(Default)]
pub struct HandlerCounts {
    told: [u64; Misreading::HANDLERS.len()],
    shapes: [u64; SHAPES.len()],
}

impl HandlerCounts {
    /// Notes a load or a query; the store is as the call left it.
    pub fn note(&mut self, call: &Call, answer: u32, store: &[u8]) {
        let number = answer as u8;
        if number == 2 && q2_by(store, Some(Misreading::NotInSoundness)).is_some() {
            self.tell(Misreading::NotInSoundness);
        }
        let Call::Load { domain, file } = call else {
            return;
        };
        if matches!(number, 0 | 10 | 11 | 16..=26) {
            self.note_file(file, limits_of(store));
        }
        match number {
            0 => self.note_accepted(file, store),
            10 => self.note_version(file),
            18 | 19 | 24 => self.note_refused(store, domain, file, number),
            _ => {}
        }
    }

    /// Counts the versions whose low byte is one that is read.
    fn note_version(&mut self, file: &[u8]) {
        match file.strip_prefix(&package::MARK) {
            Some([1, 1, ..]) => self.add(Shape::Version0101),
            Some([1, 2, ..]) => self.add(Shape::Version0102),
            _ => {}
        }
    }

    fn tell(&mut self, misreading: Misreading) {
        let mut all = Misreading::HANDLERS.iter();
        if let Some(place) = all.position(|&m| m == misreading) {
            self.told[place] += 1;
        }
    }

    /// Counts the readings that the file alone tells apart.
    fn note_file(&mut self, file: &[u8], limits: Limits) {
        let right = of_file(file, limits, None);
        let first = package::version(file, None) == Some(Version::First);
        for misreading in Misreading::HANDLERS {
            let asked = match misreading {
                Misreading::After18 | Misreading::NotInSoundness => false,
                Misreading::HandlersInFirst => true,
                _ => !first,
            };
            if asked && of_file(file, limits, Some(misreading)) != right {
                self.tell(misreading);
            }
        }
    }

    /// Counts the readings that would have gone on to another answer.
    fn note_refused(&mut self, store: &[u8], domain: &[u8], file: &[u8], number: u8) {
        let wrong: &[Misreading] = match number {
            24 => &[Misreading::After18],
            _ => &[Misreading::RangeUncalled, Misreading::HandlerUncalled],
        };
        for &misreading in wrong {
            let Some(mut contents) = q2(store) else {
                return;
            };
            contents.misreading = Some(misreading);
            let judged = judge_load(&mut contents, asked::room(store), domain, file);
            if judged != Err(number) {
                self.tell(misreading);
            }
        }
    }

    fn note_accepted(&mut self, file: &[u8], store: &[u8]) {
        let contents = q2(store).expect("an accepted load leaves a sound store");
        let version = |number: usize| contents.packages[number].package.version;
        let last = contents.packages.len() - 1;
        let imports = &contents.packages[last].imports;
        if imports
            .iter()
            .any(|&import| version(import) != version(last))
        {
            self.tell(Misreading::VersionsApart);
            self.add(match version(last) {
                Version::First => Shape::FirstImportsSecond,
                Version::Second => Shape::SecondImportsFirst,
            });
        }
        let read = package::read(file, contents.limits);
        let codes = read.and_then(|package| q16(&package)).unwrap_or_default();
        if codes.iter().any(|code| code.handlers.iter().count() > 0) {
            self.add(Shape::Handlers);
        }
        if codes.iter().any(range_has_call) {
            self.add(Shape::CallInRange);
        }
    }

    fn add(&mut self, shape: Shape) {
        self.shapes[shape as usize] += 1;
    }

    fn told(&self) -> impl Iterator<Item = (Misreading, u64)> + '_ {
        Misreading::HANDLERS.into_iter().zip(self.told)
    }

    /// What was counted fewer times than this.
    pub fn shortfalls(&self, least: u64) -> Vec<String> {
        let told = self
            .told()
            .map(|(m, count)| (format!("{m:?} was told apart"), count));
        let shapes = SHAPES.iter().zip(self.shapes);
        let shapes = shapes.map(|(name, count)| (name.to_string(), count));
        let few = told.chain(shapes).filter(|&(_, count)| count < least);
        few.map(|(what, count)| format!("{what} only {count} times"))
            .collect()
    }
}

/// The limits of a sound store.
fn limits_of(store: &[u8]) -> Limits {
    StoreVersion::of(store).unwrap_or_default().limits()
}

/// The first no among questions 10, 11, 16, 17 and 24, by a misreading or none.
fn of_file(file: &[u8], limits: Limits, misreading: Option<Misreading>) -> Result<(), u8> {
    let reading = Reading {
        version: q10(file, misreading).ok_or(10)?,
        limits,
        misreading,
    };
    let package = q11(file, reading).ok_or(11)?;
    let kind = DomainKind::WithInt;
    let codes = match misreading {
        None => judge_codes(&package, kind)?,
        Some(wrong) => wrong.judge_codes(&package, kind)?,
    };
    drop(codes);
    Ok(())
}

/// Does a code have a call in the range of a handler?
fn range_has_call(code: &Code) -> bool {
    let outside = Misreading::RangeUncalled.looked_at(code);
    let calls = |starts: &[usize]| code::calls(code.bytes, starts).count();
    calls(&outside) < calls(&code.starts)
}

impl fmt::Display for HandlerCounts {
    fn fmt(&self, f: &mut fmt::Formatter) -> fmt::Result {
        for (name, count) in SHAPES.iter().zip(self.shapes) {
            writeln!(f, "{name}: {count}")?;
        }
        let told: Vec<String> = self
            .told()
            .map(|(m, count)| format!("{m:?} {count}"))
            .collect();
        write!(
            f,
            "answers that tell readings of handlers apart: {}",
            told.join(", ")
        )
    }
}
