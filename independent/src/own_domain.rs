//! Counts of answers that hang on what FE stands for.

use crate::contents::{Contents, MethodPlace};
use crate::ledger::Call;
use crate::load_questions::{for_all_running, q16, q18, q19};
use crate::misreadings::Misreading;
use crate::operations::asked;
use crate::policy::Role;
use crate::questions::{judge_load, q2, q7, q9};
use std::fmt;

/// What is counted.
#[derive(Clone, Copy)]
enum Count {
    Accepted,
    Calls,
    Overrides,
    Refused19,
    Refused20,
    Yes,
    No,
}

const NAMES: [&str; 7] = [
    "loads with FE were accepted",
    "FE decided an accepted call between two domains",
    "FE decided an accepted overriding between two domains",
    "FE decided a 19",
    "FE decided a 20",
    "FE decided a query's yes",
    "FE decided a query's no",
];

#[derive(Default)]
pub struct OwnCounts([u64; NAMES.len()]);

impl OwnCounts {
    /// Notes a load or a query; the store is as the call left it.
    pub fn note(&mut self, call: &Call, answer: u32, store: &[u8]) {
        match (call, answer & 0xFF) {
            (Call::Load { .. }, 0) => self.note_accepted(store),
            (Call::Load { domain, file }, 19 | 20) => {
                let number = answer as u8;
                if decides_refusal(store, domain, file, number) {
                    self.add(if number == 19 {
                        Count::Refused19
                    } else {
                        Count::Refused20
                    });
                }
            }
            (Call::Query { .. }, 0) => self.note_query(call, answer >> 8 == 1, store),
            _ => {}
        }
    }

    fn add(&mut self, count: Count) {
        self.0[count as usize] += 1;
    }

    fn note_accepted(&mut self, store: &[u8]) {
        let mut contents = q2(store).expect("an accepted load leaves a sound store");
        let last = contents.packages.len() - 1;
        let mut methods = contents.packages[last]
            .package
            .classes
            .iter()
            .flat_map(|c| &c.methods);
        if methods.any(|method| method.policy.lists_own()) {
            self.add(Count::Accepted);
        }
        contents.misreading = Some(Misreading::NoDomain);
        if !calls_pass(&contents, last) {
            self.add(Count::Calls);
        }
        let apart = |runs, asked| {
            in_one_domain(&contents, runs, asked) || contents.runs_allows(runs, asked)
        };
        if !for_all_running(&contents, last, apart) {
            self.add(Count::Overrides);
        }
    }

    fn note_query(&mut self, call: &Call, yes: bool, store: &[u8]) {
        let misreading = if yes {
            Misreading::NoDomain
        } else {
            Misreading::AskedFor
        };
        if allowed_by(call, store, misreading) != Some(yes) {
            self.add(if yes { Count::Yes } else { Count::No });
        }
    }

    /// What was counted fewer times than this.
    pub fn shortfalls(&self, least: u64) -> Vec<String> {
        let counts = NAMES.iter().zip(self.0);
        let few = counts.filter(|&(_, count)| count < least);
        few.map(|(name, count)| format!("{name} only {count} times"))
            .collect()
    }
}

/// Would a load that answered this be answered otherwise if FE stood for the loading
/// domain everywhere, or for nothing in an ancestor's list?
fn decides_refusal(store: &[u8], domain: &[u8], file: &[u8], number: u8) -> bool {
    let otherwise = |misreading| {
        let mut contents = q2(store)?;
        contents.misreading = Some(misreading);
        let judged = judge_load(&mut contents, asked::room(store), domain, file);
        Some(judged != Err(number))
    };
    let misreadings = [Misreading::NowLoading, Misreading::NotOfAncestors];
    misreadings.into_iter().any(|m| otherwise(m) == Some(true))
}

fn in_one_domain(contents: &Contents, first: MethodPlace, second: MethodPlace) -> bool {
    let domain = |place: MethodPlace| contents.packages[place.class.package].domain;
    domain(first) == domain(second)
}

/// Question 19 for the calls of a package that name a method in another domain.
fn calls_pass(contents: &Contents, package: usize) -> bool {
    let installed = &contents.packages[package];
    let codes = q16(&installed.package).unwrap_or_default();
    let mut calls = q18(contents, package, &codes).unwrap_or_default();
    calls.retain(|call| !in_one_domain(contents, call.caller, call.meant.declared));
    q19(contents, installed.domain, &calls)
}

/// What a query over a sound store says with FE misread.
fn allowed_by(call: &Call, store: &[u8], misreading: Misreading) -> Option<bool> {
    let Call::Query {
        domain,
        package,
        class,
        name,
    } = call
    else {
        return None;
    };
    let mut contents = q2(store)?;
    contents.misreading = Some(misreading);
    let package = q7(&contents, package)?;
    let method = q9(&contents, package, *class, *name)?;
    Some(contents.allows(method, Role::Queried, domain))
}

impl fmt::Display for OwnCounts {
    fn fmt(&self, f: &mut fmt::Formatter) -> fmt::Result {
        let counts = NAMES.iter().zip(self.0);
        let lines: Vec<String> = counts
            .map(|(name, count)| format!("{name}: {count}"))
            .collect();
        f.write_str(&lines.join("\n"))
    }
}
