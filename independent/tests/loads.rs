//! Questions 11 to 20, one point after the other.

mod common;
use common::*;
use independent::generate::limits::{chain, count_limits, method_limits};
use independent::generate::model::FileModel;

#[test]
fn limits_at_their_value_and_one_past() {
    let earlier = [chain(P2, 1, 1)];
    let files = count_limits(P1, D1, Some(P2));
    for file in files.into_iter().chain(method_limits(P1, D1)) {
        let number = judged_after(&earlier, &file.model);
        assert_eq!(number, file.number, "{}", file.name);
    }
}

#[test]
fn q12_and_q13() {
    let first = [chain(P1, 1, 1)];
    assert_eq!(judged_after(&first, &chain(P1, 1, 1)), 12);
    assert_eq!(judged(&importing(chain(P1, 1, 1), &[P1])), 13);
    let own = importing(chain(P1, 1, 1), &[P1]);
    assert_eq!(judged_after(&first, &own), 12);
    let twice = importing(chain(P2, 1, 1), &[P1, P1]);
    assert_eq!(judged_after(&first, &twice), 0);
    let missing = importing(chain(P2, 1, 1), &[P1, D1]);
    assert_eq!(judged_after(&first, &missing), 13);
    // A package AID may equal a domain's.
    assert_eq!(judged(&chain(D1, 1, 1)), 0);
}

/// The number for a class or interface with these parents, after class 0 (kind 0)
/// and class 1 (kind 1), with the same two imported as package 1 and 2.
fn with_parents(kind: u8, parents: &[(u8, u8)]) -> u8 {
    let two = |aid| package(aid, vec![class(&[], vec![]), interface(&[], vec![])]);
    let mut model = importing(two(P2), &[P1, P1]);
    let mut last = class(parents, vec![]);
    last.kind = kind;
    model.classes.push(last);
    judged_after(&[two(P1)], &model)
}

#[test]
fn q14_parents() {
    for package in [0, 1, 2] {
        assert_eq!(with_parents(0, &[(package, 0)]), 0);
        assert_eq!(with_parents(0, &[(package, 1)]), 0);
        assert_eq!(with_parents(1, &[(package, 0)]), 14);
        assert_eq!(with_parents(1, &[(package, 1)]), 0);
        assert_eq!(with_parents(0, &[(package, 2)]), 14);
        assert_eq!(with_parents(1, &[(package, 1); 4]), 0);
        assert_eq!(with_parents(0, &[(package, 0); 2]), 14);
    }
    assert_eq!(with_parents(0, &[(1, 0), (2, 0)]), 14);
    assert_eq!(with_parents(0, &[(0, 1), (1, 0), (2, 1), (1, 1)]), 0);
    assert_eq!(with_parents(0, &[(3, 0)]), 14);
    assert_eq!(with_parents(0, &[(255, 0)]), 14);
    assert_eq!(with_parents(0, &[(0, 255)]), 14);
}

#[test]
fn q14_depth_goes_on_into_the_store() {
    let below = |depth: u8| {
        let mut model = importing(chain(P2, 1, depth), &[P1]);
        model.classes[0].parents = vec![(1, 2)];
        model
    };
    assert_eq!(judged_after(&[chain(P1, 1, 3)], &below(5)), 0);
    assert_eq!(judged_after(&[chain(P1, 1, 3)], &below(6)), 14);
}

#[test]
fn q15_names_and_bits() {
    let one = |kind: u8, bits: u8| {
        let mut only = class(&[], vec![method(bits, 1, None)]);
        only.kind = kind;
        judged(&package(P1, vec![only]))
    };
    let numbers = [0, 0x20, 0x40, 0x60].map(|bits| one(0, bits));
    assert_eq!(numbers, [0, 15, 0, 0]);
    let numbers = [0, 0x20, 0x40, 0x60].map(|bits| one(1, bits));
    assert_eq!(numbers, [0, 15, 15, 15]);
    let same = vec![method(STATIC, 1, None), method(BODY, 1, None)];
    assert_eq!(judged(&package(P1, vec![class(&[], same)])), 15);
}

/// Package P1: class 0 has methods 1 (body), 2 (static), 3 (bare), 5 (hidden body);
/// interface 1 has method 4; class 2 inherits from class 0. All allow everyone.
fn library(aid: &[u8]) -> FileModel {
    let methods = vec![
        method(VISIBLE | BODY, 1, None),
        method(VISIBLE | STATIC, 2, None),
        method(VISIBLE, 3, None),
        method(BODY, 5, None),
    ];
    let held = interface(&[], vec![method(VISIBLE, 4, None)]);
    package(
        aid,
        vec![class(&[], methods), held, class(&[(0, 0)], vec![])],
    )
}

/// The number for a call of this kind with this reference; package 1 is a library too.
fn calling(opcode: u8, reference: (u8, u8, u16)) -> u8 {
    let mut model = importing(library(P2), &[P1]);
    model.references = vec![(9, 9, 9), reference];
    let code: &[u8] = match opcode {
        0x8E => &[0x8E, 0xFF, 0, 1, 0xFF, 0x7A],
        0x8B => &[0x8B, 0, 1, 0x7A],
        0x8C => &[0x8C, 0, 1, 0x7A],
        _ => &[0x8D, 0, 1, 0x7A],
    };
    let caller = coded(STATIC, 1, Some(&[]), code);
    model.classes.push(class(&[], vec![caller]));
    judged_after(&[library(P1)], &model)
}

#[test]
fn q18_kinds_of_call() {
    for package in [0, 1] {
        let numbers = |opcode| {
            let references = [(0, 1), (0, 2), (0, 3), (1, 4), (2, 1), (0, 9), (9, 1)];
            references.map(|(class, name)| calling(opcode, (package, class, name)))
        };
        // Class 2 inherits method 1.
        assert_eq!(numbers(0x8B), [0, 18, 0, 18, 0, 18, 18]);
        assert_eq!(numbers(0x8C), [0, 0, 18, 18, 0, 18, 18]);
        assert_eq!(numbers(0x8D), [18, 0, 18, 18, 18, 18, 18]);
        assert_eq!(numbers(0x8E), [18, 18, 18, 0, 18, 18, 18]);
    }
    assert_eq!(calling(0x8C, (0, 0, 5)), 0);
    assert_eq!(calling(0x8C, (1, 0, 5)), 18);
    assert_eq!(calling(0x8C, (2, 0, 1)), 18);
}

#[test]
fn q18_reference_index() {
    let mut model = with_code(&[0x8D, 0, 1, 0x7A]);
    model.references = vec![(0, 0, 1)];
    assert_eq!(judged(&model), 18);
    model.references.push((0, 0, 1));
    // The method calls itself and does not allow the loading domain.
    assert_eq!(judged(&model), 19);
    model.classes[0].methods[0].allowed = Some(vec![0]);
    assert_eq!(judged(&model), 0);
}

#[test]
fn q20_which_method_runs() {
    let (one, both) = (Some(&[0][..]), Some(&[0, 1][..]));
    let judge = |classes| judged(&package(P1, classes));
    let base = || class(&[], vec![method(BODY, 7, both)]);
    // A static n is passed over, in the search and as what is asked about.
    let passed_over = class(&[(0, 0)], vec![method(STATIC, 7, one)]);
    assert_eq!(judge(vec![base(), passed_over]), 0);
    // A method that is not implemented ends the search: nothing runs.
    let ended = class(&[(0, 0)], vec![method(0, 7, one)]);
    assert_eq!(judge(vec![base(), ended]), 0);
    let narrower = || class(&[(0, 0)], vec![method(BODY, 7, one)]);
    assert_eq!(judge(vec![base(), narrower()]), 20);
    let wider = class(&[(0, 0)], vec![method(BODY, 7, None)]);
    assert_eq!(judge(vec![base(), wider]), 0);
    // What is asked reaches past a class that ended the search.
    let ended = class(&[(0, 0)], vec![method(0, 7, one)]);
    let below = class(&[(0, 1)], vec![method(BODY, 7, one)]);
    assert_eq!(judge(vec![base(), ended, below]), 20);
    let every = class(&[], vec![method(0, 7, None)]);
    assert_eq!(judge(vec![every, narrower()]), 20);
}

#[test]
fn q20_across_packages() {
    // The same indexes stand for other domains in the other file.
    let first = package(
        P1,
        vec![class(&[], vec![method(VISIBLE | BODY, 7, Some(&[0]))])],
    );
    let below = |domains: [&[u8]; 2], allowed: &[u8]| {
        let own = class(&[(1, 0)], vec![method(BODY, 7, Some(allowed))]);
        let mut model = importing(package(P2, vec![own]), &[P1]);
        model.domains = domains.iter().map(|d| d.to_vec()).collect();
        judged_after(std::slice::from_ref(&first), &model)
    };
    assert_eq!(below([D1, D2], &[0]), 0);
    assert_eq!(below([D1, D2], &[1]), 20);
    assert_eq!(below([D2, D1], &[0]), 20);
    assert_eq!(below([D2, D1], &[1]), 0);
}
