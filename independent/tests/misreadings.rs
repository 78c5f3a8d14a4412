//! Generated sequences find wrong readings of FE.

mod common;
use common::misread::{assert_found, differs};
use independent::generate::own_pairs::own_pairs;
use independent::generate::sequences::sequence;
use independent::misreadings::Misreading;

/// Among this many generated sequences, one shows a misreading.
const SEQUENCES: u64 = 400;

/// The most steps that are left of it: five packages in three domains and a query.
const MOST_STEPS: usize = 10;

/// All but the one that gives no other answer.
fn wrong() -> impl Iterator<Item = Misreading> {
    let all = Misreading::OWN_DOMAIN.into_iter();
    all.filter(|&misreading| misreading != Misreading::NotOfCallers)
}

#[test]
fn misreadings_are_found() {
    wrong().for_each(|misreading| assert_found(misreading, SEQUENCES, MOST_STEPS));
}

#[test]
fn pairs_of_lists_find_what_stands_in_lists() {
    let in_lists = [
        Misreading::NowLoading,
        Misreading::EveryDomain,
        Misreading::ApartFromIndex,
        Misreading::NoDomain,
        Misreading::AskedFor,
        Misreading::NotOfAncestors,
    ];
    let pairs = own_pairs();
    for misreading in in_lists {
        let found = pairs.iter().any(|sequence| differs(misreading, sequence));
        assert!(found, "{misreading:?}");
    }
}

/// A caller stands in the file that loads, so its FE is the loading domain, which
/// question 19 asks for in any case.
#[test]
fn fe_of_a_caller_adds_nothing_to_question_19() {
    let generated = (0..2 * SEQUENCES).map(sequence);
    for sequence in generated.chain(own_pairs()) {
        assert!(!differs(Misreading::NotOfCallers, &sequence));
    }
}
