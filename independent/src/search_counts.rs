//! Counts of loads whose answers hang on the search for declarations.

use crate::contents::Contents;
use crate::ledger::Call;
use crate::load_questions::{q16, q18, q19, Code};
use crate::misread_search::SearchMisreading;
use crate::misreadings::Misreading;
use crate::operations::asked;
use crate::questions::{judge_load, q2};
use crate::search_shapes::{Load, Shape, SHAPES};
use std::fmt;

/// For each wrong reading, how many answers it would have changed; and the shapes.
#[derive(Default)]
pub struct SearchCounts {
    told: [u64; SearchMisreading::ALL.len()],
    shapes: [u64; SHAPES.len()],
}

impl SearchCounts {
    /// Notes a load; the store is as the load left it.
    pub fn note(&mut self, call: &Call, answer: u32, store: &[u8]) {
        let number = answer as u8;
        let (Call::Load { domain, file }, 0 | 18..=21) = (call, number) else {
            return;
        };
        let Some(mut contents) = q2(store) else {
            return;
        };
        if number != 0 {
            // With the first no after 17 the package is among the contents.
            let _ = judge_load(&mut contents, asked::room(store), domain, file);
        }
        let judged = contents.packages.len() - 1;
        let package = contents.packages[judged].package.clone();
        let codes = q16(&package).unwrap_or_default();
        self.note_calls(&Load {
            contents: &contents,
            domain,
            codes: &codes,
            number,
        });
        let right = of_calls(&contents, domain, &codes);
        for (place, wrong) in SearchMisreading::ALL.into_iter().enumerate() {
            contents.misreading = Some(Misreading::Search(wrong));
            let differs = of_calls(&contents, domain, &codes) != right;
            self.told[place] += u64::from(differs);
        }
    }

    fn add(&mut self, shape: Shape) {
        self.shapes[shape as usize] += 1;
    }

    /// Counts each shape that a call of the load has, once.
    fn note_calls(&mut self, load: &Load) {
        let mut shapes = load.shapes();
        shapes.sort_unstable();
        shapes.dedup();
        shapes.into_iter().for_each(|shape| self.add(shape));
    }

    fn counts(&self) -> impl Iterator<Item = (String, u64)> + '_ {
        let shapes = SHAPES.iter().zip(self.shapes);
        let shapes = shapes.map(|(name, count)| (name.to_string(), count));
        let told = SearchMisreading::ALL.iter().zip(self.told);
        shapes.chain(told.map(|(m, count)| (format!("{m:?} was told apart"), count)))
    }

    /// What was counted fewer times than this.
    pub fn shortfalls(&self, least: u64) -> Vec<String> {
        let few = self.counts().filter(|&(_, count)| count < least);
        few.map(|(what, count)| format!("{what} only {count} times"))
            .collect()
    }
}

/// The first no among questions 18 and 19 of the package that is added last.
pub(crate) fn of_calls(contents: &Contents, domain: &[u8], codes: &[Code]) -> Result<(), u8> {
    let calls = q18(contents, contents.packages.len() - 1, codes).ok_or(18)?;
    match q19(contents, domain, &calls) {
        true => Ok(()),
        false => Err(19),
    }
}

impl fmt::Display for SearchCounts {
    fn fmt(&self, f: &mut fmt::Formatter) -> fmt::Result {
        for (name, count) in SHAPES.iter().zip(self.shapes) {
            writeln!(f, "{name}: {count}")?;
        }
        let told = SearchMisreading::ALL.iter().zip(self.told);
        let told: Vec<String> = told.map(|(m, count)| format!("{m:?} {count}")).collect();
        let told = told.join(", ");
        write!(f, "answers that tell readings of searches apart: {told}")
    }
}
