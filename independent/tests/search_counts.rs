//! Counts of answers that hang on the search for declarations, and wrong readings of it.

mod common;
use common::misread::{assert_found, differs};
use common::*;
use independent::generate::search_cases::{all_forms, lists, places};
use independent::generate::sequences::sequence;
use independent::ledger::Call;
use independent::loader::{Sequence, Step};
use independent::misread_search::SearchMisreading::{self, *};
use independent::misreadings::Misreading;
use independent::search_counts::SearchCounts;

/// All that is counted: shapes and wrong readings.
const ALL: usize = 21 + 20;

/// Among this many generated sequences, one shows a misreading.
const SEQUENCES: u64 = 1200;

/// The most steps that are left of it.
const MOST_STEPS: usize = 8;

fn note(counts: &mut SearchCounts, sequence: &Sequence) {
    replay(sequence, |call, answer, store| {
        counts.note(call, answer, store)
    });
}

/// What a load of a package of two classes, the second below the first, counts where it calls
/// name 7 of the second.
fn counted(above: independent::generate::model::ClassModel, opcode: u8) -> Vec<String> {
    let mut counts = SearchCounts::default();
    let all = counts.shortfalls(1);
    assert_eq!(all.len(), ALL);
    let code = match opcode {
        0x8E => vec![0x8E, 0, 0, 0, 0, 0x7A],
        _ => vec![opcode, 0, 0, 0x7A],
    };
    let caller = class(&[], vec![coded(STATIC, 1, Some(&[]), &code)]);
    let mut model = package(P1, vec![above, class(&[(0, 0)], vec![]), caller]);
    model.references = vec![(0, 1, 7)];
    let (domain, file) = (D1.to_vec(), model.bytes());
    let steps = vec![Step::Call(Call::Load { domain, file })];
    let start = store(300);
    note(&mut counts, &Sequence { start, steps });
    let left = counts.shortfalls(1);
    let counted = all.into_iter().filter(|what| !left.contains(what));
    let counted = counted.map(|what| what.replace(" only 0 times", ""));
    counted
        .map(|what| what.replace(" was told apart", ""))
        .collect()
}

#[test]
fn one_load_of_each_kind() {
    let standard = "an inherited declaration was called in a store with the standard limits";
    let by_chain = counted(class(&[], vec![method(BODY, 7, None)]), 0x8B);
    let found = "a declaration was found up the kind-0 parents";
    assert_eq!(by_chain, [found, standard, "NamedAlone"]);
    let found = "a declaration was found in an interface of the class named";
    let ended = "8B ended at an interface's declaration";
    let readings = ["NamedAlone", "ChainAlone", "DeclaredVirtual"];
    let by_interface = counted(interface(&[], vec![method(0, 7, None)]), 0x8B);
    assert_eq!(
        by_interface,
        [&[found, ended, standard][..], &readings].concat()
    );
    let ended = "18: a static declaration ended the search of 8B or 8E";
    let by_static = counted(class(&[], vec![method(STATIC, 7, None)]), 0x8B);
    assert_eq!(by_static, [ended]);
    let nothing = "18: nothing was found above a class with parents";
    assert_eq!(counted(class(&[], vec![]), 0x8B), [nothing]);
    let closed = counted(class(&[], vec![method(BODY, 7, Some(&[]))]), 0x8B);
    let refused = "19: an inherited declaration does not allow all that it must";
    assert_eq!(closed, [refused, "NamedAlone", "Unasked19"]);
}

#[test]
fn generated_sequences_count_all() {
    let mut counts = SearchCounts::default();
    (0..2000).for_each(|seed| note(&mut counts, &sequence(seed)));
    println!("{counts}");
    assert_eq!(counts.shortfalls(4), [""; 0]);
}

#[test]
fn misreadings_are_found() {
    for wrong in SearchMisreading::ALL {
        assert_found(Misreading::Search(wrong), SEQUENCES, MOST_STEPS);
    }
}

/// Each of the readings is told apart by one of the sequences.
fn assert_told(sequences: &[Sequence], readings: &[SearchMisreading]) {
    for &wrong in readings {
        let found = |s| differs(Misreading::Search(wrong), s);
        assert!(sequences.iter().any(found), "{wrong:?}");
    }
}

#[test]
fn the_fixed_sequences_find_misreadings() {
    let orders = [
        NamedAlone,
        ChainAlone,
        NamedInterfaces,
        OneLevel,
        MemberByMember,
        HighestFirst,
        BreadthFirst,
        ParentsBefore,
        LastListed,
        DeclaredVirtual,
        ImportedAlone,
        Unasked19,
    ];
    assert_told(&places(), &orders);
    let forms = [
        PassesStatic,
        PassesBare,
        PassesHidden,
        UntilFit,
        VisibleByName,
        AnyVirtual,
        NamedInterface,
        AnyInterface,
    ];
    assert_told(&all_forms(), &forms);
    assert_told(&lists(), &[Unasked19, NamedAlone, NamedInterface]);
}
