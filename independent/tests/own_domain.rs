//! Request 2, hand-made: FE in a list, and the domain that it stands for.

mod common;
use common::*;
use independent::generate::model::{ClassModel, FileModel};
use independent::generate::own_lists::own_limits;
use independent::operations::{create, delete, load, query, remove};
use independent::package::Version;

const OWN: u8 = 0xFE;

/// A list that is FE alone.
const FE: Option<&[u8]> = Some(&[OWN]);

/// The number of a load in a domain.
fn loaded(store: &mut [u8], domain: &[u8], model: &FileModel) -> u8 {
    load(store, domain, &model.bytes()).number
}

/// A class with a static method 1 and a method 2 of this list.
fn holding(list: Option<&[u8]>) -> ClassModel {
    let methods = vec![
        method(VISIBLE | STATIC, 1, list),
        method(VISIBLE | BODY, 2, list),
    ];
    class(&[], methods)
}

/// The number of P2, loaded in D2 with these classes, after P1 in D1 with this list.
fn after_p1(list: Option<&[u8]>, classes: Vec<ClassModel>) -> u8 {
    let mut store = store(500);
    let first = package(P1, vec![holding(list)]);
    assert_eq!(loaded(&mut store, D1, &first), 0);
    let mut second = importing(package(P2, classes), &[P1]);
    second.references = vec![(1, 0, 1)];
    loaded(&mut store, D2, &second)
}

/// The number of a P2 whose method with this list calls P1's of the other list.
fn calling(caller: Option<&[u8]>, called: Option<&[u8]>) -> u8 {
    let caller = coded(STATIC, 1, caller, &[0x8D, 0, 0, 0x7A]);
    after_p1(called, vec![class(&[], vec![caller])])
}

/// The number of a P2 whose method with this list runs in place of P1's of the other list.
fn overriding(runs: Option<&[u8]>, above: Option<&[u8]>) -> u8 {
    after_p1(above, vec![class(&[(1, 0)], vec![method(BODY, 2, runs)])])
}

/// Does method 1 of a P1 that was loaded in D1 with this list allow the domain?
fn allows(list: Option<&[u8]>, domain: &[u8]) -> bool {
    let mut store = store(200);
    let model = package(P1, vec![holding(list)]);
    assert_eq!(loaded(&mut store, D1, &model), 0);
    let answer = query(&store, domain, P1, 0, 1);
    assert_eq!(answer.number, 0);
    answer.figure == 1
}

#[test]
fn lists_with_fe_at_their_limits_and_past_them() {
    for domain_count in [0, 1, 2, 31, 32] {
        let both = Version::BOTH.map(|version| own_limits(version, P1, D2, domain_count));
        for limit in both.into_iter().flatten() {
            let answer = load(&mut store(2048), D1, &limit.file);
            let name = limit.name;
            assert_eq!(
                answer.number, limit.number,
                "{name}, {domain_count} domains"
            );
        }
    }
}

#[test]
fn every_index_past_the_domains_but_fe_is_11() {
    for index in 0..=255 {
        let number = judged(&package(P1, vec![holding(Some(&[index]))]));
        let reads = index < 2 || index == OWN;
        assert_eq!(number, if reads { 0 } else { 11 }, "{index:02X}");
    }
}

#[test]
fn every_count_past_32_but_ff_is_11() {
    for count in 0..=254 {
        let number = judged(&package(P1, vec![holding(Some(&vec![OWN; count]))]));
        assert_eq!(number, if count <= 32 { 0 } else { 11 }, "{count}");
    }
}

#[test]
fn a_query_reads_fe_as_the_entrys_domain() {
    for list in [&[OWN][..], &[OWN, OWN], &[0], &[OWN, 0], &[OWN; 32]] {
        assert!(allows(Some(list), D1), "{list:02X?}");
        assert!(!allows(Some(list), D2), "{list:02X?}");
        assert!(!allows(Some(list), P3), "{list:02X?}");
    }
    for list in [&[OWN, 1][..], &[1, OWN], &[1, 1, OWN, 1]] {
        assert!(allows(Some(list), D1) && allows(Some(list), D2));
        assert!(!allows(Some(list), P3));
    }
    assert!(!allows(Some(&[]), D1) && !allows(Some(&[1]), D1));
    assert!(allows(None, P3));
}

#[test]
fn the_same_file_in_two_domains_allows_its_own() {
    let mut store = store(500);
    for (aid, home) in [(P1, D1), (P2, D2)] {
        let mut model = package(aid, vec![holding(FE)]);
        model.domains.clear();
        assert_eq!(loaded(&mut store, home, &model), 0);
    }
    let answers = [(D1, P1), (D2, P1), (D1, P2), (D2, P2)]
        .map(|(domain, package)| query(&store, domain, package, 0, 2).figure);
    assert_eq!(answers, [1, 0, 0, 1]);
}

#[test]
fn q19_the_called_methods_fe_is_its_own_entrys_domain() {
    // P1 lies in D1, P2 in D2: FE of P1 does not allow the domain that loads.
    assert_eq!(calling(Some(&[]), FE), 19);
    assert_eq!(calling(FE, FE), 19);
    assert_eq!(calling(Some(&[0]), FE), 19);
    assert_eq!(calling(Some(&[]), Some(&[OWN, 0])), 19);
    assert_eq!(calling(Some(&[]), Some(&[OWN, 1])), 0);
    // What it does allow a caller may allow too.
    assert_eq!(calling(Some(&[0]), Some(&[OWN, 1])), 0);
    assert_eq!(calling(Some(&[0, 1]), Some(&[1, OWN])), 0);
    assert_eq!(calling(Some(&[0]), Some(&[1])), 19);
}

#[test]
fn q19_a_callers_fe_is_the_loading_domain() {
    assert_eq!(calling(FE, Some(&[1])), 0);
    assert_eq!(calling(Some(&[OWN, 1]), Some(&[1])), 0);
    assert_eq!(calling(FE, Some(&[0])), 19);
    assert_eq!(calling(Some(&[OWN, 0]), Some(&[1])), 19);
    assert_eq!(calling(Some(&[OWN, 0]), Some(&[1, OWN])), 0);
    assert_eq!(calling(FE, None), 0);
    assert_eq!(calling(None, Some(&[OWN, 0, 1])), 19);
}

#[test]
fn q19_in_one_file_fe_and_the_index_are_one_right() {
    let call = |caller: &[u8], called: &[u8]| {
        let caller = coded(STATIC, 1, Some(caller), &[0x8D, 0, 0, 0x7A]);
        let methods = vec![caller, method(STATIC, 2, Some(called))];
        let mut model = package(P1, vec![class(&[], methods)]);
        model.references = vec![(0, 0, 2)];
        judged(&model)
    };
    assert_eq!(call(&[], &[OWN]), 0);
    assert_eq!(call(&[OWN], &[0]), 0);
    assert_eq!(call(&[0], &[OWN]), 0);
    assert_eq!(call(&[1], &[OWN]), 19);
    assert_eq!(call(&[1], &[OWN, 1]), 0);
    assert_eq!(call(&[OWN], &[1]), 19);
}

#[test]
fn q20_an_ancestors_fe_is_its_own_entrys_domain() {
    assert_eq!(overriding(FE, FE), 20);
    assert_eq!(overriding(Some(&[1]), FE), 20);
    assert_eq!(overriding(Some(&[]), FE), 20);
    assert_eq!(overriding(Some(&[0]), FE), 0);
    assert_eq!(overriding(Some(&[0, OWN]), FE), 0);
    assert_eq!(overriding(None, FE), 0);
}

#[test]
fn q20_the_running_methods_fe_is_its_own_entrys_domain() {
    assert_eq!(overriding(FE, Some(&[1])), 0);
    assert_eq!(overriding(FE, Some(&[0])), 20);
    assert_eq!(overriding(FE, Some(&[0, 1])), 20);
    assert_eq!(overriding(Some(&[OWN, 0]), Some(&[0, 1])), 0);
    assert_eq!(overriding(Some(&[OWN, 0]), Some(&[1, OWN])), 0);
    assert_eq!(overriding(Some(&[OWN, 0, 1]), None), 20);
}

#[test]
fn q20_an_installed_method_runs_for_an_own_interface() {
    let inheriting = |asked: &[u8], runs: &[u8]| {
        let asked = interface(&[], vec![method(0, 2, Some(asked))]);
        after_p1(Some(runs), vec![asked, class(&[(0, 0), (1, 0)], vec![])])
    };
    // FE of the interface is D2, FE of the method that runs is D1.
    assert_eq!(inheriting(&[OWN], &[OWN]), 20);
    assert_eq!(inheriting(&[OWN], &[1]), 0);
    assert_eq!(inheriting(&[0], &[OWN]), 0);
    assert_eq!(inheriting(&[OWN, 0], &[OWN, 1]), 0);
    assert_eq!(inheriting(&[OWN, 0], &[OWN, 0]), 20);
}

#[test]
fn fe_stays_when_the_domain_is_made_anew() {
    let mut store = store(500);
    let model = package(P1, vec![holding(FE)]);
    assert_eq!(loaded(&mut store, D1, &model), 0);
    assert_eq!(delete(&mut store, D1).number, 6);
    assert_eq!(remove(&mut store, P1).number, 0);
    assert_eq!(delete(&mut store, D1).number, 0);
    assert_eq!(loaded(&mut store, D2, &model), 0);
    assert_eq!(create(&mut store, D1).number, 0);
    assert_eq!(query(&store, D1, P1, 0, 1).figure, 0);
    assert_eq!(query(&store, D2, P1, 0, 1).figure, 1);
}
