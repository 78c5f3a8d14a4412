//! Request 9, hand-made: domains of kind 3 beside those of kind 1.

mod common;
use common::*;
use independent::card::run_card;
use independent::generate::kind_cases;
use independent::generate::limits::chain;
use independent::generate::model::FileModel;
use independent::ledger::{Entry, Ledger};
use independent::limits::Limits;
use independent::operations::{create, create_of, create_without_int, delete, fresh, fresh_limits};
use independent::operations::{load, query, remove};
use independent::questions::q2;
use independent::store::StoreVersion;
use independent::without_int::DomainKind;

const INT: &[u8] = &[0x0A, 0x7A];
const RETURN: &[u8] = &[0x7A];

/// The number of a load of a file with this code.
fn loaded(store: &mut [u8], domain: &[u8], code: &[u8]) -> u8 {
    load(store, domain, &with_code(code).bytes()).number
}

#[test]
fn the_second_creations_numbers_and_bytes() {
    for length in [0, 63, 65_536] {
        assert_eq!(create_without_int(&mut vec![0; length], D3).encoded(), 1);
    }
    assert_eq!(create_without_int(&mut [0; 64], &[]).encoded(), 2);
    for length in [0, 4, 17, 256, 70_000] {
        let mut store = store(64);
        let before = store.clone();
        assert_eq!(
            create_without_int(&mut store, &vec![9; length]).encoded(),
            3
        );
        assert_eq!(store, before);
    }
    assert_eq!(create_without_int(&mut store(64), D2).encoded(), 4);
    let mut store = store(64);
    assert_eq!(create_without_int(&mut store, D3).encoded(), 0);
    assert_eq!(store[5..7], [0, 31]);
    assert_eq!(store[23..31], [3, 0, 5, 0xA0, 0, 0, 0, 0xD3]);
    assert!(store[31..].iter().all(|&b| b == 0));
    assert_eq!(create_without_int(&mut store, &[1; 16]).encoded(), 0);
    // 14 bytes are left: 12 AID bytes need 15.
    assert_eq!(create_without_int(&mut store, &[2; 12]).encoded(), 21);
    assert_eq!(create_without_int(&mut store, &[2; 11]).encoded(), 0);
    assert_eq!(store[5..7], [0, 64]);
}

#[test]
fn rooms_are_those_of_the_first_creation() {
    let creations = |sequence| {
        let numbers = numbers(sequence);
        assert_eq!(numbers[..3], [0, 0, 0]);
        let (first, second) = numbers[3..].split_at(24);
        assert_eq!(first, second);
        first.iter().step_by(2).filter(|&&n| n == 21).count()
    };
    let full: Vec<usize> = kind_cases::rooms().iter().map(creations).collect();
    // From 19 and 15 free bytes on, in stores of version 1 and 2; an AID of 5 needs 8.
    assert_eq!(full, [0, 0, 0, 0, 0, 0, 0, 0, 0, 4, 3, 2, 1, 0, 0, 0, 0, 0]);
}

#[test]
fn one_aid_is_one_domain() {
    let mut store = store_of_both(64);
    for aid in [D1, D3] {
        assert_eq!(create(&mut store, aid).number, 4);
        assert_eq!(create_without_int(&mut store, aid).number, 4);
    }
    // 4 before 21.
    let mut full = store_of_both(64);
    assert_eq!(create(&mut full, &[1; 16]).number, 0);
    assert_eq!(create_without_int(&mut full, D1).number, 4);
    assert_eq!(create(&mut full, D3).number, 4);
    assert_eq!(create_without_int(&mut full, &[7; 16]).number, 21);
}

#[test]
fn deletion_treats_both_alike_and_either_kind_may_come_back() {
    for kinds in DomainKind::BOTH.map(|kind| [kind, DomainKind::BOTH[0], DomainKind::BOTH[1]]) {
        let mut store = store(300);
        let before = store.clone();
        for kind in kinds {
            let expected = match kind {
                DomainKind::WithInt => 0,
                DomainKind::WithoutInt => 26,
            };
            assert_eq!(delete(&mut store, D3).number, 5);
            assert_eq!(load(&mut store, D3, &[]).number, 5);
            assert_eq!(create_of(&mut store, kind, D3).number, 0);
            assert_eq!(loaded(&mut store, D3, INT), expected);
            if expected == 0 {
                assert_eq!(remove(&mut store, P1).number, 0);
            }
            assert_eq!(loaded(&mut store, D3, RETURN), 0);
            assert_eq!(delete(&mut store, D3).number, 6);
            assert_eq!(remove(&mut store, P1).number, 0);
            assert_eq!(delete(&mut store, D3).number, 0);
            assert_eq!(store, before);
        }
    }
}

/// P1 with a static method 1 that allows all, and P2 that calls it; each has this code.
fn meeting(first: &[u8], second: &[u8]) -> [FileModel; 2] {
    let callee = coded(VISIBLE | STATIC, 1, None, first);
    let caller = coded(STATIC, 1, None, &[&[0x8D, 0, 0], second].concat());
    let mut calling = importing(package(P2, vec![class(&[], vec![caller])]), &[P1]);
    calling.references = vec![(1, 0, 1)];
    [package(P1, vec![class(&[], vec![callee])]), calling]
}

#[test]
fn the_kind_is_that_of_the_loading_domain() {
    let cases = [
        (D1, INT, D3, RETURN, [0, 0]),
        (D1, INT, D3, INT, [0, 26]),
        (D1, RETURN, D3, RETURN, [0, 0]),
        (D1, INT, D1, INT, [0, 0]),
        (D3, RETURN, D1, INT, [0, 0]),
        (D3, RETURN, D3, INT, [0, 26]),
        (D3, RETURN, D3, RETURN, [0, 0]),
        (D3, INT, D1, INT, [26, 13]),
    ];
    for (first_home, first, second_home, second, expected) in cases {
        let mut store = store_of_both(500);
        let [callee, caller] = meeting(first, second);
        let numbers = [(first_home, callee), (second_home, caller)]
            .map(|(home, model)| load(&mut store, home, &model.bytes()).number);
        assert_eq!(numbers, expected);
    }
}

#[test]
fn policies_and_queries_ask_for_no_kind() {
    let mut store = store_of_both(300);
    let list = [0xFE, 1];
    let file = package(P1, vec![class(&[], vec![method(BODY, 1, Some(&list))])]);
    assert_eq!(load(&mut store, D3, &file.bytes()).encoded(), 1 << 8);
    for (domain, yes) in [(D1, 0), (D2, 1), (D3, 1)] {
        assert_eq!(query(&store, domain, P1, 0, 1).encoded(), yes << 8);
    }
}

/// Is a store with these entries sound, in both versions?
fn sound(entries: &[Entry]) -> bool {
    let versions = [StoreVersion::First, StoreVersion::Second(Limits::STANDARD)];
    let [first, second] = versions.map(|version| {
        let mut ledger = Ledger::new(300);
        ledger.version = version;
        ledger.entries = entries.to_vec();
        q2(&ledger.written_out(300)).is_some()
    });
    assert_eq!(first, second);
    first
}

#[test]
fn soundness_takes_in_the_new_kind() {
    let domain = |kind, aid: &[u8]| Entry::Domain(kind, aid.to_vec());
    let package = |domain: &[u8], model: &FileModel| Entry::Package {
        domain: domain.to_vec(),
        file: model.bytes(),
    };
    let [with, without] = DomainKind::BOTH;
    let [int, plain] = [INT, RETURN].map(with_code);
    assert!(sound(&[domain(without, D1)]));
    assert!(sound(&[domain(with, D1), domain(without, D3)]));
    for (first, second) in [(with, without), (without, with), (without, without)] {
        assert!(!sound(&[domain(first, D1), domain(second, D1)]));
    }
    assert!(sound(&[domain(with, D1), package(D1, &int)]));
    assert!(sound(&[domain(without, D1), package(D1, &plain)]));
    assert!(!sound(&[domain(without, D1), package(D1, &int)]));
    let later = package(D1, &chain(P2, 0, 1));
    assert!(!sound(&[domain(without, D1), package(D1, &int), later]));
    for length in [0, 4, 17] {
        assert!(!sound(&[domain(without, &vec![1; length])]));
    }
}

#[test]
fn kinds_of_entries() {
    let start = store_of_both(64);
    for place in [7, 15, 23] {
        for kind in 0..=255 {
            let mut store = start.clone();
            store[place] = kind;
            assert_eq!(q2(&store).is_some(), matches!(kind, 1 | 3), "{kind}");
        }
    }
}

#[test]
fn the_ledger_enters_kind_3() {
    for sequence in kind_cases::domains().iter().chain(&kind_cases::meetings()) {
        assert!(sequence.has_ledger());
        answers(sequence);
    }
    let mut ledger = Ledger::new(64);
    ledger.entries = vec![Entry::Domain(DomainKind::WithoutInt, D3.to_vec())];
    let mut first = vec![0xEE; 64];
    assert_eq!(fresh(&mut first).number, 0);
    assert_eq!(create_without_int(&mut first, D3).number, 0);
    assert_eq!(first, ledger.written_out(64));
    let mut second = vec![0xEE; 64];
    assert_eq!(fresh_limits(&mut second, Limits::LEAST).number, 0);
    assert_eq!(create_without_int(&mut second, D3).number, 0);
    ledger.version = StoreVersion::Second(Limits::LEAST);
    assert_eq!(second, ledger.written_out(64));
    assert_eq!(second[11..19], [3, 0, 5, 0xA0, 0, 0, 0, 0xD3]);
}

#[test]
fn the_card_has_no_line_for_it() {
    assert_eq!(run_card(b"K A0000000D3\n"), b"1 bad\n");
}
