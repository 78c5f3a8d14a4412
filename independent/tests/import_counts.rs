//! Counts of answers that hang on where imports lie, and wrong readings of it.

mod common;
use common::misread::assert_found;
use common::*;
use independent::generate::model::FileModel;
use independent::generate::sequences::sequence;
use independent::import_counts::ImportCounts;
use independent::ledger::Call;
use independent::loader::{Sequence, Step};
use independent::misread_imports::ImportMisreading;
use independent::misreadings::Misreading;

/// All that is counted: shapes in accepted and in refused loads, wrong readings, places found
/// before a removal, and wrong readings in question 13.
const ALL: usize = 16 + 16 + 16 + 1 + 5;

/// Among this many generated sequences, one shows a misreading.
const SEQUENCES: u64 = 1200;

/// The most steps that are left of it: as many packages as a file may import, and the file.
const MOST_STEPS: usize = 20;

fn note(counts: &mut ImportCounts, sequence: &Sequence) {
    replay(sequence, |call, answer, store| {
        counts.note(call, answer, store)
    });
}

/// What these calls count over a store with two domains.
fn counted(calls: &[Call]) -> Vec<String> {
    let mut counts = ImportCounts::default();
    let all = counts.shortfalls(1);
    assert_eq!(all.len(), ALL);
    let steps = calls.iter().cloned().map(Step::Call).collect();
    let start = store(1000);
    note(&mut counts, &Sequence { start, steps });
    let left = counts.shortfalls(1);
    let counted = all.into_iter().filter(|what| !left.contains(what));
    counted
        .map(|what| what.replace(" only 0 times", ""))
        .collect()
}

fn loading(model: &FileModel) -> Call {
    Call::Load {
        domain: D1.to_vec(),
        file: model.bytes(),
    }
}

/// A package with a static method of name 1.
fn held(aid: &[u8], allowed: Option<&[u8]>) -> Call {
    let method = method(0xE0, 1, allowed);
    loading(&package(aid, vec![class(&[], vec![method])]))
}

/// A file that imports these and calls the first class of the first of them.
fn calling(imports: &[&[u8]]) -> Call {
    let caller = coded(STATIC, 1, Some(&[]), &[0x8D, 0, 0, 0x7A]);
    let model = package(&[9; 5], vec![class(&[], vec![caller])]);
    let mut model = importing(model, imports);
    model.references = vec![(1, 0, 1)];
    loading(&model)
}

#[test]
fn places_that_are_used_after_a_removal() {
    let remove = |aid: &[u8]| Call::Remove(aid.to_vec());
    let [first, open, closed] = [P1, &[1; 7], &[2; 9]];
    let before = [held(first, None), held(open, None), held(closed, Some(&[]))];
    let after = [
        calling(&[open]),
        remove(&[9; 5]),
        remove(first),
        calling(&[open]),
    ];
    let calls = [&before[..], &after].concat();
    let expected = [
        "accepted: an import is neither the first package nor the last",
        "accepted: an import lies elsewhere than when it was imported before",
        "BeforeRemoval was told apart",
    ];
    assert_eq!(counted(&calls), expected);
}

#[test]
fn nearly_the_same_aid() {
    let (short, long) = (&[1; 5][..], &[1; 6][..]);
    let refused = [held(long, None), calling(&[short])];
    assert_eq!(counted(&refused), ["BeginsWith in 13 was told apart"]);
    let longer = [held(short, None), calling(&[long])];
    assert_eq!(counted(&longer), ["BeginsIt in 13 was told apart"]);
    let both = [
        held(long, Some(&[])),
        held(short, None),
        calling(&[short, long]),
    ];
    let expected = [
        "accepted: an import's AID begins that of another package",
        "BeginsWith was told apart",
        "SecondForFirst was told apart",
        "OneFurther was told apart",
    ];
    assert_eq!(counted(&both), expected);
}

#[test]
fn generated_sequences_count_all() {
    let mut counts = ImportCounts::default();
    (0..2000).for_each(|seed| note(&mut counts, &sequence(seed)));
    println!("{counts}");
    assert_eq!(counts.shortfalls(4), [""; 0]);
}

#[test]
fn misreadings_are_found() {
    for wrong in ImportMisreading::ALL {
        assert_found(Misreading::Imports(wrong), SEQUENCES, MOST_STEPS);
    }
}
