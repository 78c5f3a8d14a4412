//! Counts of answers that hang on limits.

mod common;
use common::*;
use independent::generate::limit_cases::{at_limits, given, stored};
use independent::generate::limits::chain;
use independent::generate::sequences::sequence;
use independent::ledger::Call;
use independent::limit_counts::LimitCounts;
use independent::limits::Limits;
use independent::loader::{Sequence, Step};

/// Notes the calls of a sequence.
fn note(counts: &mut LimitCounts, sequence: &Sequence) {
    replay(sequence, |call, answer, store| {
        counts.note(call, answer, store)
    });
}

/// What is still counted less than once after these calls.
fn left(calls: Vec<Call>) -> Vec<String> {
    let mut counts = LimitCounts::default();
    assert_eq!(counts.shortfalls(0).len(), 0);
    let steps = calls.into_iter().map(Step::Call).collect();
    let start = vec![0; 200];
    note(&mut counts, &Sequence { start, steps });
    counts.shortfalls(1)
}

fn name(what: &str) -> String {
    format!("{what} was reached only 0 times")
}

#[test]
fn a_store_of_version_1_counts_little() {
    let all = left(vec![]).len();
    let (domain, file) = (D1.to_vec(), chain(P1, 0, 1).bytes());
    let load = Call::Load { domain, file };
    let found = left(vec![Call::Fresh, Call::Create(D1.to_vec()), load]);
    assert_eq!(all - found.len(), 2);
    assert!(!found.contains(&name("AlwaysSecond")));
    assert!(!found.contains(&name("Loaded { store: 1, file: 1 }")));
}

#[test]
fn limits_given_on_both_sides() {
    let past = Limits::GREATEST.depth + 1;
    let found = left(vec![Call::FreshLimits(Limits::new(past, 4, 9))]);
    let counted = ["Given(Depth, 17)", "GivenPast(Depth)", "WritesAt30"];
    assert!(counted.iter().all(|what| !found.contains(&name(what))));
    assert_eq!(left(vec![]).len() - found.len(), 3);
    let found = left(vec![Call::FreshLimits(Limits::new(past - 1, 4, 9))]);
    let counted = ["Given(Depth, 16)", "GreatestOut(Depth)"];
    assert!(counted.iter().all(|what| !found.contains(&name(what))));
    assert_eq!(left(vec![]).len() - found.len(), 2);
}

#[test]
fn the_fixed_sequences_count_all() {
    let mut counts = LimitCounts::default();
    let sequences = given().into_iter().chain(stored()).chain(at_limits());
    sequences.for_each(|s| note(&mut counts, &s));
    assert_eq!(counts.shortfalls(1), [""; 0]);
}

#[test]
fn generated_sequences_count_all() {
    let mut counts = LimitCounts::default();
    (0..2000).for_each(|seed| note(&mut counts, &sequence(seed)));
    println!("{counts}");
    assert_eq!(counts.shortfalls(4), [""; 0]);
}
