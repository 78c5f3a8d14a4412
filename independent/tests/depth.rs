//! Request 5: an accepted load carries the depth of its deepest own class, a refused
//! one 0.

mod common;
use common::*;
use independent::generate::limits::chain;
use independent::generate::model::{ClassModel, FileModel};
use independent::handlers::Handler;
use independent::operations::{load, remove};
use independent::package::Version;

/// The parents of each class of a file.
type Parents<'a> = &'a [&'a [(u8, u8)]];

/// The depth that a file carries after these packages.
fn depth_after(earlier: &[FileModel], model: &FileModel) -> u8 {
    let answer = load(&mut store_with(earlier), D1, &model.bytes());
    assert_eq!(answer.number, 0);
    answer.figure
}

/// The depth that interfaces with these parents carry.
fn depth(parents: Parents) -> u8 {
    depth_after(&[], &interfaces(P1, parents))
}

/// The same for interfaces of P2 after P1, a chain of eight, which is imported.
fn depth_below(parents: Parents) -> u8 {
    let model = importing(interfaces(P2, parents), &[P1]);
    depth_after(&[chain(P1, 1, 8)], &model)
}

#[test]
fn no_class() {
    assert_eq!(depth(&[]), 0);
    assert_eq!(depth_below(&[]), 0);
}

#[test]
fn classes_without_parents() {
    for kind in [0, 1] {
        assert_eq!(depth_after(&[], &chain(P1, kind, 1)), 1);
    }
    assert_eq!(depth(&[&[], &[], &[]]), 1);
    assert_eq!(depth_below(&[&[]]), 1);
}

#[test]
fn the_deepest_class_at_any_place() {
    assert_eq!(depth(&[&[], &[(0, 0)], &[(0, 1)]]), 3);
    assert_eq!(depth(&[&[], &[(0, 0)], &[(0, 1)], &[(0, 0)]]), 3);
    assert_eq!(depth(&[&[], &[(0, 0)], &[(0, 1)], &[], &[]]), 3);
    assert_eq!(depth(&[&[], &[], &[(0, 1)], &[]]), 2);
    assert_eq!(depth_below(&[&[(1, 3)], &[], &[(1, 0)]]), 5);
}

#[test]
fn parents_of_both_kinds_count() {
    let depth = |classes: &[(u8, &[(u8, u8)])]| {
        let classes = classes.iter();
        let classes = classes.map(|&(kind, parents)| ClassModel::new(kind, parents, vec![]));
        depth_after(&[], &package(P1, classes.collect()))
    };
    assert_eq!(depth(&[(1, &[]), (1, &[(0, 0)]), (0, &[(0, 1)])]), 3);
    // A class and two interfaces, then a class below both kinds.
    for parents in [[(0, 0), (0, 2)], [(0, 2), (0, 0)]] {
        let classes = [(0, &[][..]), (1, &[]), (1, &[(0, 1)]), (0, &parents)];
        assert_eq!(depth(&classes), 3);
    }
    // The same with an interface and two classes.
    for parents in [[(0, 0), (0, 2)], [(0, 2), (0, 0)]] {
        let classes = [(1, &[][..]), (0, &[]), (0, &[(0, 1)]), (0, &parents)];
        assert_eq!(depth(&classes), 3);
    }
}

#[test]
fn every_parent_counts() {
    let with = |parents: &[(u8, u8)]| depth(&[&[], &[(0, 0)], &[], parents]);
    assert_eq!(with(&[(0, 0), (0, 2)]), 2);
    assert_eq!(with(&[(0, 0), (0, 1)]), 3);
    assert_eq!(with(&[(0, 1), (0, 0)]), 3);
    assert_eq!(with(&[(0, 0), (0, 2), (0, 1), (0, 2)]), 3);
    assert_eq!(with(&[(0, 0), (0, 2), (0, 2), (0, 1)]), 3);
}

#[test]
fn a_parent_listed_again_adds_nothing() {
    for count in 1..=4 {
        assert_eq!(depth(&[&[], &vec![(0, 0); count]]), 2);
        assert_eq!(depth_below(&[&vec![(1, 4); count]]), 6);
    }
    let twice = importing(interfaces(P2, &[&[(1, 0), (2, 0)]]), &[P1, P1]);
    assert_eq!(depth_after(&[chain(P1, 1, 1)], &twice), 2);
}

#[test]
fn a_class_of_the_store() {
    for number in 0..7 {
        assert_eq!(depth_below(&[&[(1, number)]]), number + 2);
    }
    for number in 0..6 {
        assert_eq!(depth_below(&[&[(1, number)], &[(0, 0)]]), number + 3);
    }
    // The deeper of an own and an installed parent.
    assert_eq!(depth_below(&[&[], &[(0, 0)], &[(0, 1), (1, 0)]]), 3);
    assert_eq!(depth_below(&[&[], &[(0, 0)], &[(0, 1), (1, 4)]]), 6);
}

#[test]
fn classes_of_two_packages() {
    let first = chain(P1, 1, 2);
    let second = importing(interfaces(P2, &[&[(1, 1)], &[(0, 0)]]), &[P1]);
    assert_eq!(depth_after(std::slice::from_ref(&first), &second), 4);
    let earlier = [first, second];
    let third = |parents: Parents, imports: &[&[u8]]| {
        let model = importing(interfaces(P3, parents), imports);
        depth_after(&earlier, &model)
    };
    assert_eq!(third(&[&[(1, 1)]], &[P2]), 5);
    assert_eq!(third(&[&[(1, 0)], &[]], &[P2]), 4);
    assert_eq!(third(&[&[(1, 1)]], &[P1]), 3);
    assert_eq!(third(&[&[(1, 1), (2, 1)]], &[P1, P2]), 5);
    assert_eq!(third(&[&[(1, 1), (2, 1)]], &[P2, P1]), 5);
    assert_eq!(third(&[&[(1, 0), (2, 0)]], &[P1, P2]), 4);
}

#[test]
fn packages_removed_and_loaded_anew() {
    let mut store = store_with(&[]);
    for depth in [3, 1, 2] {
        let second = importing(interfaces(P2, &[&[(1, depth - 1)]]), &[P1]);
        for (model, figure) in [(chain(P1, 1, depth), depth), (second, depth + 1)] {
            let answer = load(&mut store, D1, &model.bytes());
            assert_eq!((answer.number, answer.figure), (0, figure));
        }
        assert_eq!(remove(&mut store, P2).number, 0);
        assert_eq!(remove(&mut store, P1).number, 0);
    }
}

#[test]
fn depth_8_is_the_most() {
    let answer = |earlier: &[FileModel], model: &FileModel| {
        load(&mut store_with(earlier), D1, &model.bytes()).encoded()
    };
    for kind in [0, 1] {
        let depths = [7, 8, 9].map(|depth| answer(&[], &chain(P1, kind, depth)));
        assert_eq!(depths, [7 << 8, 8 << 8, 14]);
        let below = |depth: u8| {
            let mut model = importing(chain(P2, kind, depth), &[P1]);
            model.classes[0].parents = vec![(1, 4)];
            answer(&[chain(P1, kind, 5)], &model)
        };
        assert_eq!([2, 3, 4].map(below), [7 << 8, 8 << 8, 14]);
    }
}

#[test]
fn a_refused_load_carries_0() {
    let file = chain(P1, 0, 5).bytes();
    assert_eq!(load(&mut [0; 63], D1, &file).encoded(), 1);
    assert_eq!(load(&mut [0; 64], D1, &file).encoded(), 2);
    assert_eq!(load(&mut store(200), &D1[1..], &file).encoded(), 3);
    assert_eq!(load(&mut store(200), P1, &file).encoded(), 5);
    let mut version = file.clone();
    version[4] = 3;
    assert_eq!(load(&mut store(200), D1, &version).encoded(), 10);
    version[4] = 2;
    assert_eq!(load(&mut store(200), D1, &version).encoded(), 5 << 8);
    let cut = &file[..file.len() - 1];
    assert_eq!(load(&mut store(200), D1, cut).encoded(), 11);
    let mut installed = store_with(&[chain(P1, 0, 5)]);
    assert_eq!(load(&mut installed, D1, &file).encoded(), 12);
    let fits = 23 + 3 + 1 + D1.len() + file.len();
    assert_eq!(load(&mut store(fits), D1, &file).encoded(), 5 << 8);
    assert_eq!(load(&mut store(fits - 1), D1, &file).encoded(), 21);
}

/// A package with a chain of five classes and then these.
fn after_chain(classes: Vec<ClassModel>) -> FileModel {
    let mut model = package(P1, chain(P1, 0, 5).classes);
    model.classes.extend(classes);
    model.references = vec![(0, 5, 1)];
    model
}

#[test]
fn a_load_refused_by_13_to_24_carries_0() {
    let with = |parents: &[(u8, u8)], methods| after_chain(vec![class(parents, methods)]);
    let code = |code: &[u8]| with(&[], vec![coded(STATIC, 1, Some(&[]), code)]);
    let mut handled = code(&[0x10, 0, 0x7A]);
    handled.version = Version::Second;
    handled.classes[5].methods[0].handlers = vec![Handler::new(0, 3, 1)];
    let narrower = vec![
        class(&[(0, 4)], vec![method(BODY, 7, None)]),
        class(&[(0, 5)], vec![method(BODY, 7, Some(&[0]))]),
    ];
    let cases = [
        (5 << 8, after_chain(vec![])),
        (13, importing(after_chain(vec![]), &[P2])),
        (14, with(&[(0, 5)], vec![])),
        (14, with(&[(0, 3), (0, 3)], vec![])),
        (15, with(&[(0, 4)], vec![method(STATIC & !BODY, 1, None)])),
        (16, code(&[0x00])),
        (17, code(&[0x70, 0x01])),
        (24, handled),
        (18, code(&[0x8B, 0, 0, 0x7A])),
        (19, code(&[0x8D, 0, 0, 0x7A])),
        (20, after_chain(narrower)),
    ];
    for (answer, model) in cases {
        let given = load(&mut store(500), D1, &model.bytes());
        assert_eq!(given.encoded(), answer);
    }
}
