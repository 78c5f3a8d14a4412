//! Counts of answers that hang on FE.

mod common;
use common::*;
use independent::generate::model::FileModel;
use independent::ledger::Call;
use independent::loader::{Independent, Loader};
use independent::own_domain::OwnCounts;

const OWN: u8 = 0xFE;
const NOTHING: usize = 7;

/// A package with a method 1 of this list; the second one calls and overrides it.
fn file(aid: &[u8], list: &[u8], calling: Option<&[u8]>) -> FileModel {
    let mut methods = vec![
        method(VISIBLE | STATIC, 1, Some(list)),
        method(BODY, 2, Some(list)),
    ];
    let Some(caller) = calling else {
        return package(aid, vec![class(&[], methods)]);
    };
    methods[0] = coded(STATIC, 1, Some(caller), &[0x8D, 0, 0, 0x7A]);
    let mut model = importing(package(aid, vec![class(&[(1, 0)], methods)]), &[P1]);
    model.references = vec![(1, 0, 1)];
    model
}

/// Notes a call over the store; the count names that still have fewer than one.
fn left(counts: &mut OwnCounts, store: &mut [u8], call: Call) -> usize {
    let answer = Independent.call(store, &call);
    counts.note(&call, answer, store);
    counts.shortfalls(1).len()
}

fn load_in(domain: &[u8], model: &FileModel) -> Call {
    let (domain, file) = (domain.to_vec(), model.bytes());
    Call::Load { domain, file }
}

fn query(domain: &[u8], package: &[u8]) -> Call {
    let (domain, package) = (domain.to_vec(), package.to_vec());
    Call::Query {
        domain,
        package,
        class: 0,
        name: 1,
    }
}

#[test]
fn without_fe_nothing_is_counted() {
    let counts = &mut OwnCounts::default();
    let store = &mut store(500);
    let first = file(P1, &[0, 1], None);
    assert_eq!(left(counts, store, load_in(D1, &first)), NOTHING);
    assert_eq!(left(counts, store, query(D1, P1)), NOTHING);
    assert_eq!(left(counts, store, query(P1, P1)), NOTHING);
    let narrower = file(P2, &[0], Some(&[0]));
    assert_eq!(left(counts, store, load_in(D2, &narrower)), NOTHING);
    let second = file(P2, &[0, 1], Some(&[0]));
    assert_eq!(left(counts, store, load_in(D2, &second)), NOTHING);
}

#[test]
fn each_count_has_its_case() {
    let counts = &mut OwnCounts::default();
    let store = &mut store(500);
    // Accepted with FE; yes and no by FE.
    let first = file(P1, &[OWN, 1], None);
    assert_eq!(left(counts, store, load_in(D1, &first)), NOTHING - 1);
    assert_eq!(left(counts, store, query(D2, P1)), NOTHING - 1);
    assert_eq!(left(counts, store, query(D1, P1)), NOTHING - 2);
    assert_eq!(left(counts, store, query(P1, P1)), NOTHING - 3);
    // Refused by 20: the method that runs lacks D1, which FE of the first one says.
    let narrower = file(P2, &[1], Some(&[]));
    assert_eq!(left(counts, store, load_in(D2, &narrower)), NOTHING - 4);
    // Accepted: D1 by FE of the first one, D2 by FE of the second.
    let second = file(P2, &[OWN, 0], Some(&[0]));
    assert_eq!(left(counts, store, load_in(D2, &second)), NOTHING - 6);
    // Refused by 19: the first one's FE is not the domain that loads.
    assert_eq!(left(counts, store, Call::Remove(P2.to_vec())), 1);
    assert_eq!(left(counts, store, Call::Remove(P1.to_vec())), 1);
    assert_eq!(left(counts, store, load_in(D1, &file(P1, &[OWN], None))), 1);
    let wide = file(P2, &[0, 1], Some(&[]));
    assert_eq!(left(counts, store, load_in(D2, &wide)), 0);
    assert_eq!(counts.shortfalls(3).len(), 6);
}
