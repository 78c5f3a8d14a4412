//! Counts of loads whose answers hang on where imports lie.

use crate::contents::Contents;
use crate::import_shapes::SHAPES;
use crate::ledger::Call;
use crate::load_questions::q16;
use crate::misread_imports::ImportMisreading;
use crate::misreadings::Misreading;
use crate::operations::asked;
use crate::package;
use crate::questions::{judge_load, q2};
use crate::search_counts::of_calls;
use crate::search_shapes::Load;
use std::collections::HashMap;
use std::fmt;

const READINGS: usize = ImportMisreading::ALL.len();
const FINDING: usize = ImportMisreading::FINDING.len();

/// The shapes in accepted loads and in refused ones; for each wrong reading, how many answers
/// of 18, 19 or more it would have changed, and how many 13.
#[derive(Default)]
pub struct ImportCounts {
    accepted: [u64; SHAPES.len()],
    refused: [u64; SHAPES.len()],
    told: [u64; READINGS],
    told_13: [u64; FINDING],
    /// The same for places found before a removal and used after it.
    told_earlier: u64,
    /// For each AID, the number that the package had when it was first imported.
    earlier: HashMap<Vec<u8>, usize>,
}

impl ImportCounts {
    /// Notes a load; the store is as the load left it.
    pub fn note(&mut self, call: &Call, answer: u32, store: &[u8]) {
        let number = answer as u8;
        match (call, number) {
            (Call::Fresh | Call::FreshLimits(_), 0) => self.earlier.clear(),
            (Call::Load { file, .. }, 13) => self.note_13(file, store),
            (Call::Load { domain, file }, 0 | 18..=21) => {
                self.note_load(domain, file, number, store);
            }
            _ => {}
        }
    }

    /// Which readings find each import?
    fn note_13(&mut self, file: &[u8], store: &[u8]) {
        let Some(contents) = q2(store) else {
            return;
        };
        let Some(package) = package::read(file, contents.limits) else {
            return;
        };
        for (told, wrong) in self.told_13.iter_mut().zip(ImportMisreading::FINDING) {
            let found = |aid: &&[u8]| wrong.found(&contents.packages, aid).is_some();
            *told += u64::from(package.imports.iter().all(found));
        }
    }

    fn note_load(&mut self, domain: &[u8], file: &[u8], number: u8, store: &[u8]) {
        let Some(mut contents) = q2(store) else {
            return;
        };
        if number != 0 {
            // With the first no after 17 the package is among the contents.
            let _ = judge_load(&mut contents, asked::room(store), domain, file);
        }
        let judged = contents.packages.len() - 1;
        if contents.packages[judged].imports.is_empty()
            && contents.packages[judged].package.references.is_empty()
        {
            return;
        }
        let earlier = self.earlier_places(&contents);
        let package = contents.packages[judged].package.clone();
        let codes = q16(&package).unwrap_or_default();
        let places = contents.packages[judged].imports.iter().zip(&earlier);
        let moved: Vec<bool> = places.map(|(now, earlier)| now != earlier).collect();
        if matches!(number, 0 | 18 | 19) {
            let load = Load {
                contents: &contents,
                domain,
                codes: &codes,
                number,
            };
            self.note_shapes(&load, &moved);
        }
        let right = of_calls(&contents, domain, &codes);
        for (told, wrong) in self.told.iter_mut().zip(ImportMisreading::ALL) {
            contents.misreading = Some(Misreading::Imports(wrong));
            *told += u64::from(of_calls(&contents, domain, &codes) != right);
        }
        contents.misreading = None;
        contents.packages[judged].imports = earlier;
        self.told_earlier += u64::from(of_calls(&contents, domain, &codes) != right);
    }

    /// The number that each import of the last package had when it was first imported, if the
    /// store has so many packages; from now on it is known.
    fn earlier_places(&mut self, contents: &Contents) -> Vec<usize> {
        let judged = contents.packages.len() - 1;
        let last = &contents.packages[judged];
        let places = last.imports.iter().zip(&last.package.imports);
        places
            .map(|(&now, aid)| {
                let known = self.earlier.entry(aid.to_vec()).or_insert(now);
                Some(*known).filter(|&known| known < judged).unwrap_or(now)
            })
            .collect()
    }

    /// Counts each shape of the load once.
    fn note_shapes(&mut self, load: &Load, moved: &[bool]) {
        let mut shapes = load.import_shapes(moved);
        shapes.sort_unstable();
        shapes.dedup();
        let counts = match load.number {
            0 => &mut self.accepted,
            _ => &mut self.refused,
        };
        shapes.iter().for_each(|&shape| counts[shape as usize] += 1);
    }

    fn readings(&self) -> impl Iterator<Item = (String, u64)> + '_ {
        let told = ImportMisreading::ALL.iter().zip(self.told);
        let told = told.map(|(m, count)| (format!("{m:?}"), count));
        let told_13 = ImportMisreading::FINDING.iter().zip(self.told_13);
        let told_13 = told_13.map(|(m, count)| (format!("{m:?} in 13"), count));
        let earlier = ("BeforeRemoval".to_string(), self.told_earlier);
        told.chain([earlier]).chain(told_13)
    }

    fn counts(&self) -> impl Iterator<Item = (String, u64)> + '_ {
        let of = |counts, what: &'static str| {
            let shapes = SHAPES.iter().zip(counts);
            shapes.map(move |(name, count)| (format!("{what}: {name}"), count))
        };
        let told = self.readings();
        of(self.accepted, "accepted")
            .chain(of(self.refused, "18 or 19"))
            .chain(told.map(|(name, count)| (format!("{name} was told apart"), count)))
    }

    /// What was counted fewer times than this.
    pub fn shortfalls(&self, least: u64) -> Vec<String> {
        let few = self.counts().filter(|&(_, count)| count < least);
        few.map(|(what, count)| format!("{what} only {count} times"))
            .collect()
    }
}

impl fmt::Display for ImportCounts {
    fn fmt(&self, f: &mut fmt::Formatter) -> fmt::Result {
        let both = self.accepted.iter().zip(self.refused);
        for (name, (accepted, refused)) in SHAPES.iter().zip(both) {
            writeln!(f, "{name}: accepted {accepted}, refused {refused}")?;
        }
        let told: Vec<String> = self
            .readings()
            .map(|(m, count)| format!("{m} {count}"))
            .collect();
        let told = told.join(", ");
        write!(f, "answers that tell readings of imports apart: {told}")
    }
}
