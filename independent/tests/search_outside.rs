//! The search for declarations (request 3) into other packages: visibility, 19, 20, stores, and
//! what it costs.

mod common;
use common::calls::*;
use common::*;
use independent::generate::limits::ladder;
use independent::generate::model::{ClassModel, FileModel};
use independent::ledger::{Entry, Ledger};
use independent::limits::Limits;
use independent::operations::{load, query};
use std::time::{Duration, Instant};

/// Package 1: a class and an interface with a visible method 7 and a hidden method 8.
fn library() -> FileModel {
    let methods = |bits| {
        vec![
            method(VISIBLE | bits, 7, ALL),
            method(bits, 8, ALL),
            method(VISIBLE | STATIC, 9, ALL),
        ]
    };
    let mut declared = methods(0);
    declared.truncate(2);
    package(
        P1,
        vec![class(&[], methods(BODY)), interface(&[], declared)],
    )
}

#[test]
fn visibility_is_that_of_the_declaration_outside_the_file() {
    let below = |above: u8, own, opcode, name| {
        let model = importing(package(P2, vec![class(&[(1, above)], own)]), &[P1]);
        judged_after(&[library()], &calling(model, opcode, (0, 0, name)))
    };
    for (above, opcode) in [(0, 0x8B), (0, 0x8C), (1, 0x8B), (1, 0x8E)] {
        assert_eq!(below(above, vec![], opcode, 7), 0);
        assert_eq!(below(above, vec![], opcode, 8), 18);
    }
    assert_eq!(below(0, vec![], 0x8D, 9), 0);
    // In the file itself it does not matter, whatever lies above.
    let own = || vec![method(BODY, 8, ALL)];
    assert_eq!(below(0, own(), 0x8B, 8), 0);
    // One that is not visible ends the search.
    let seen = interface(&[], vec![method(0, 8, ALL)]);
    let both = class(&[(1, 0), (0, 0)], vec![]);
    let model = importing(package(P2, vec![seen, both]), &[P1]);
    for opcode in [0x8B, 0x8E] {
        let model = calling(model.clone(), opcode, (0, 1, 8));
        assert_eq!(judged_after(&[library()], &model), 18);
    }
    // Own classes declare what is found first: it need not be visible.
    let model = importing(
        package(
            P2,
            vec![
                interface(&[], vec![method(0, 8, ALL)]),
                class(&[(0, 0), (1, 1)], vec![]),
            ],
        ),
        &[P1],
    );
    let model = calling(model, 0x8E, (0, 1, 8));
    assert_eq!(judged_after(&[library()], &model), 0);
}

#[test]
fn a_declaration_may_lie_in_a_package_that_is_not_imported() {
    let between = importing(
        package(
            P2,
            vec![class(&[(1, 0)], vec![]), interface(&[(1, 1)], vec![])],
        ),
        &[P1],
    );
    let calls = |opcode, reference: (u8, u8, u16), own: Vec<ClassModel>| {
        let model = importing(package(P3, own), &[P2]);
        let earlier = [library(), between.clone()];
        judged_after(&earlier, &calling(model, opcode, reference))
    };
    assert_eq!(calls(0x8B, (1, 0, 7), vec![]), 0);
    assert_eq!(calls(0x8E, (1, 1, 7), vec![]), 0);
    assert_eq!(calls(0x8D, (1, 0, 9), vec![]), 0);
    assert_eq!(calls(0x8B, (1, 0, 8), vec![]), 18);
    assert_eq!(calls(0x8B, (1, 0, 6), vec![]), 18);
    assert_eq!(calls(0x8E, (1, 2, 7), vec![]), 18);
    assert_eq!(calls(0x8E, (2, 1, 7), vec![]), 18);
    let own = || vec![class(&[(1, 0), (1, 1)], vec![])];
    assert_eq!(calls(0x8B, (0, 0, 7), own()), 0);
    assert_eq!(calls(0x8B, (0, 0, 8), own()), 18);
}

#[test]
fn question_19_asks_about_the_declaration() {
    // The declaration's indexes and FE are those of its own file and entry.
    let above = |allowed: &[u8]| {
        let methods = || vec![method(VISIBLE, 7, Some(allowed))];
        package(P1, vec![class(&[], methods()), interface(&[], methods())])
    };
    let judged = |above: FileModel, home: &[u8], parent: u8| {
        let mut model = importing(package(P2, vec![class(&[(1, parent)], vec![])]), &[P1]);
        model.domains = vec![D2.to_vec(), D1.to_vec()];
        let model = calling(model, 0x8B, (0, 0, 7));
        load(&mut store_with(&[above]), home, &model.bytes()).number
    };
    for parent in [0, 1] {
        assert_eq!(judged(above(&[0]), D1, parent), 0);
        assert_eq!(judged(above(&[1]), D1, parent), 19);
        assert_eq!(judged(above(&[0]), D2, parent), 19);
        assert_eq!(judged(above(&[1]), D2, parent), 0);
        assert_eq!(judged(above(&[0xFE]), D1, parent), 0);
        assert_eq!(judged(above(&[0xFE]), D2, parent), 19);
        assert_eq!(judged(above(&[]), D1, parent), 19);
    }
    // The caller's list is compared with the declaration's.
    let caller = |allowed: Option<&[u8]>, declared: Option<&[u8]>| {
        let mut model = package(
            P1,
            vec![
                interface(&[], vec![method(0, 7, declared)]),
                class(&[(0, 0)], vec![]),
            ],
        );
        model.references = vec![(0, 1, 7)];
        let code = call(0x8E);
        model
            .classes
            .push(class(&[], vec![coded(STATIC, 1, allowed, &code)]));
        judged_after(&[], &model)
    };
    assert_eq!(caller(Some(&[1]), Some(&[0])), 19);
    assert_eq!(caller(Some(&[1]), Some(&[0, 1])), 0);
    assert_eq!(caller(ALL, Some(&[0, 1])), 19);
    assert_eq!(caller(ALL, ALL), 0);
}

#[test]
fn eighteen_of_any_call_comes_before_nineteen_of_any() {
    let mut model = package(P1, vec![interface(&[], closed()), class(&[(0, 0)], vec![])]);
    model.references = vec![(0, 1, 7), (0, 1, 6)];
    let code = [0x8B, 0, 0, 0x8B, 0, 1, 0x7A];
    model
        .classes
        .push(class(&[], vec![coded(STATIC, 1, NOBODY, &code)]));
    assert_eq!(judged(&model), 18);
    model.references[1] = (0, 1, 7);
    assert_eq!(judged(&model), 19);
    // A reference that no call uses is not searched.
    model.references.push((0, 1, 6));
    model.classes[0].methods = open();
    assert_eq!(judged(&model), 0);
}

#[test]
fn question_20_asks_what_it_asked() {
    // The method that runs for the class named is narrower than the interface's that the call
    // means: the call passes 18 and 19, the class does not pass 20.
    let classes = |runs: Option<&[u8]>| {
        vec![
            class(&[], body(runs)),
            interface(&[], vec![method(VISIBLE, 7, ALL)]),
            class(&[(0, 0), (0, 1)], vec![]),
            interface(&[(0, 1)], vec![]),
        ]
    };
    assert_eq!(number(classes(Some(&[0])), 0x8E), 20);
    assert_eq!(number(classes(ALL), 0x8E), 0);
}

#[test]
fn stores_are_asked_the_same() {
    let store_of = |reference| {
        let base = package(P1, vec![class(&[], body(ALL))]);
        let model = importing(package(P2, vec![class(&[(1, 0)], vec![])]), &[P1]);
        let model = calling(model, 0x8B, reference);
        let mut ledger = Ledger::new(300);
        ledger.entries.push(Entry::domain(D1));
        for file in [base, model] {
            let (domain, file) = (D1.to_vec(), file.bytes());
            ledger.entries.push(Entry::Package { domain, file });
        }
        ledger.written_out(300)
    };
    let asked = |reference| query(&store_of(reference), D1, P2, 1, 1).number;
    assert_eq!(asked((0, 0, 7)), 0);
    assert_eq!(asked((1, 0, 7)), 0);
    assert_eq!(asked((0, 0, 6)), 2);
}

/// A caller of 1,024 references that all name the last class of a ladder.
fn below_ladder(name: u16) -> FileModel {
    let mut model = importing(package(P2, vec![]), &[P1]);
    model.references = vec![(1, 31, name); 1024];
    let code = |first: u16| -> Vec<u8> {
        let calls = (first..first + 512).flat_map(|index: u16| {
            let [high, low] = index.to_be_bytes();
            [0x8E, 0, high, low, 0]
        });
        calls.chain([0x7A]).collect()
    };
    let callers = [1, 2].map(|k| coded(STATIC, k, NOBODY, &code(512 * (k - 1))));
    model.classes = vec![class(&[], callers.to_vec())];
    model
}

#[test]
fn no_class_is_asked_twice_in_a_search() {
    // 21,845 ways lead up the ladder; where each were walked, a load would take minutes.
    let mut above = ladder(P1, 0, false);
    above.classes[3].methods = open();
    let mut store = store_with(&[above]);
    let start = Instant::now();
    assert_eq!(load(&mut store, D1, &below_ladder(6).bytes()).number, 18);
    assert_eq!(load(&mut store, D1, &below_ladder(7).bytes()).number, 0);
    assert!(start.elapsed() < Duration::from_secs(20));
}

#[test]
fn the_greatest_limits() {
    let mut store = limited(Limits::GREATEST);
    // A chain of 16 interfaces, each above the next eight times.
    let mut model = interfaces(P1, &[]);
    model.classes.push(interface(&[], open()));
    for above in 0..15 {
        model.classes.push(interface(&[(0, above); 8], vec![]));
    }
    assert_eq!(load(&mut store, D1, &model.bytes()).encoded(), 16 << 8);
    let calls = |name| calling(importing(package(P2, vec![]), &[P1]), 0x8E, (1, 15, name));
    assert_eq!(load(&mut store, D1, &calls(6).bytes()).number, 18);
    assert_eq!(load(&mut store, D1, &calls(7).bytes()).number, 0);
}
