//! The fixed sequences of imports: each number, and the wrong readings that they tell apart.

mod common;
use common::misread::differs;
use common::*;
use independent::generate::import_cases::{self, Case};
use independent::generate::import_moves;
use independent::loader::Sequence;
use independent::misread_imports::ImportMisreading::{self, *};
use independent::misreadings::Misreading;

/// Asserts the number of each case, after either fresh; how often each of 0, 13, 18 and 19 is
/// answered by one of them.
fn asserted(groups: &[Vec<Case>], sequences: &[Sequence]) -> [usize; 4] {
    let mut counts = [0; 4];
    assert_eq!(sequences.len(), 2 * groups.len());
    for (cases, both) in groups.iter().zip(sequences.chunks(2)) {
        let expected: Vec<u32> = cases.iter().map(|case| case.number).collect();
        for sequence in both {
            // Fresh and two creations come before.
            assert_eq!(numbers(sequence)[3..], expected);
        }
        for (count, number) in counts.iter_mut().zip([0, 13, 18, 19]) {
            *count += expected.iter().filter(|&&n| n == number).count();
        }
    }
    counts
}

#[test]
fn imports_in_every_place() {
    let counts = asserted(&import_cases::groups(), &import_cases::sequences());
    println!("{counts:?}");
    assert!(counts.iter().all(|&count| count >= 32), "{counts:?}");
}

#[test]
fn imports_that_move() {
    let counts = asserted(&import_moves::groups(), &import_moves::sequences());
    assert!(counts[0] >= 300 && counts[3] >= 80, "{counts:?}");
}

/// Each of the readings is told apart by one of the sequences.
fn assert_told(sequences: &[Sequence], readings: &[ImportMisreading]) {
    for &wrong in readings {
        let found = |s| differs(Misreading::Imports(wrong), s);
        assert!(sequences.iter().any(found), "{wrong:?}");
    }
}

#[test]
fn the_fixed_sequences_find_misreadings() {
    let all = ImportMisreading::ALL.into_iter();
    let of_references: Vec<_> = all.filter(|&wrong| wrong != ParentsFurther).collect();
    assert_told(&import_cases::sequences(), &of_references);
    let moved = [
        ParentsFurther,
        LastOfLength,
        ButLastByte,
        OneFurther,
        SecondForFirst,
    ];
    assert_told(&import_moves::sequences(), &moved);
}

/// A package with a static method of name 1, for every domain or for none.
fn held(aid: &[u8], allowed: Option<&[u8]>) -> independent::generate::model::FileModel {
    package(aid, vec![class(&[], vec![method(0xE0, 1, allowed)])])
}

/// The number of a load that imports these and calls the first class by these package numbers.
fn called(held: &[independent::generate::model::FileModel], imports: &[&[u8]], calls: &[u8]) -> u8 {
    let code = |count: usize| (0..count as u8).flat_map(|k| [0x8D, 0, k]).chain([0x7A]);
    let code: Vec<u8> = code(calls.len()).collect();
    let caller = class(&[], vec![coded(STATIC, 1, Some(&[]), &code)]);
    let mut model = importing(package(&[9; 5], vec![caller]), imports);
    model.references = calls.iter().map(|&number| (number, 0, 1)).collect();
    judged_after(held, &model)
}

#[test]
fn an_aid_is_equal_in_length_and_bytes() {
    let (short, long) = (&[1, 2, 3, 4, 5][..], &[1, 2, 3, 4, 5, 0][..]);
    let stores = [
        [held(short, None), held(long, Some(&[]))],
        [held(long, Some(&[])), held(short, None)],
    ];
    for store in &stores {
        assert_eq!(called(store, &[short], &[1]), 0);
        assert_eq!(called(store, &[long], &[1]), 19);
        assert_eq!(called(store, &[short, long], &[1]), 0);
        assert_eq!(called(store, &[short, long], &[2]), 19);
        assert_eq!(called(store, &[long, short], &[2]), 0);
        assert_eq!(called(store, &[long, short], &[1]), 19);
    }
    assert_eq!(called(&stores[0][..1], &[long], &[]), 13);
    assert_eq!(called(&stores[1][..1], &[short], &[]), 13);
}

#[test]
fn repeats_keep_their_numbers() {
    let store = [held(P1, None), held(P2, Some(&[]))];
    assert_eq!(called(&store, &[P1, P1, P2], &[1, 2]), 0);
    assert_eq!(called(&store, &[P1, P1, P2], &[3]), 19);
    assert_eq!(called(&store, &[P2, P2, P1], &[3]), 0);
    assert_eq!(called(&store, &[P2, P1, P2], &[2]), 0);
}

#[test]
fn numbers_past_the_imports_name_nothing() {
    let store = [held(P1, None)];
    for number in [2, 15, 16, 17, 255] {
        assert_eq!(called(&store, &[P1], &[1, number]), 18);
    }
    assert_eq!(called(&store, &[P1; 15], &[1, 8, 15]), 0);
    assert_eq!(called(&store, &[P1; 15], &[16]), 18);
}
