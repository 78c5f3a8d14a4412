//! Counts of answers that hang on versions and handlers.

mod common;
use common::*;
use independent::generate::handler_cases::{
    handlers_of_codes, limits, of_version, orders, version_pairs,
};
use independent::generate::limits::chain;
use independent::generate::sequences::sequence;
use independent::handler_counts::HandlerCounts;
use independent::ledger::Call;
use independent::loader::{Independent, Loader, Sequence};
use independent::package::Version;

/// All that is counted: wrong readings and shapes.
const ALL: usize = 31 + 6;

/// Notes the calls of a sequence.
fn note(counts: &mut HandlerCounts, sequence: &Sequence) {
    replay(sequence, |call, answer, store| {
        counts.note(call, answer, store)
    });
}

#[test]
fn version_1_alone_tells_only_that_it_has_no_handlers() {
    let mut counts = HandlerCounts::default();
    assert_eq!(counts.shortfalls(0).len(), 0);
    assert_eq!(counts.shortfalls(1).len(), ALL);
    let mut store = store(500);
    for model in [with_code(&[0x7A]), importing(chain(P2, 0, 1), &[P1])] {
        let (domain, file) = (D1.to_vec(), model.bytes());
        let call = Call::Load { domain, file };
        let answer = Independent.call(&mut store, &call);
        assert_eq!(answer & 0xFF, 0);
        counts.note(&call, answer, &store);
    }
    let left = counts.shortfalls(1);
    assert_eq!(left.len(), ALL - 1);
    assert!(!left.contains(&"HandlersInFirst was told apart only 0 times".into()));
}

#[test]
fn one_accepted_load_of_version_2() {
    let mut counts = HandlerCounts::default();
    let mut store = store_with(&[chain(P2, 0, 1)]);
    let model = importing(with_code(&[0x00, 0x7A]), &[P2]);
    let (domain, file) = (D1.to_vec(), of_version(Version::Second, model).bytes());
    let call = Call::Load { domain, file };
    let answer = Independent.call(&mut store, &call);
    counts.note(&call, answer, &store);
    let left = counts.shortfalls(1);
    // Told apart: EndBelowLength, TargetOutside, InOrder, Apart, FirstAlone, NoneInSecond,
    // VersionsApart; and two shapes.
    assert_eq!(left.len(), ALL - 9, "{left:?}");
}

#[test]
fn the_fixed_sequences_count_all_but_unsound_stores() {
    let mut counts = HandlerCounts::default();
    let sequences = handlers_of_codes().into_iter();
    let sequences = sequences.chain(version_pairs()).chain([limits(), orders()]);
    sequences.for_each(|s| note(&mut counts, &s));
    let unsound = "NotInSoundness was told apart only 0 times";
    assert_eq!(counts.shortfalls(1), [unsound]);
}

#[test]
fn generated_sequences_count_all() {
    let mut counts = HandlerCounts::default();
    (0..1200).for_each(|seed| note(&mut counts, &sequence(seed)));
    println!("{counts}");
    assert_eq!(counts.shortfalls(4), [""; 0]);
}
