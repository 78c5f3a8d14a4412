//! The search for declarations (request 3): its order, what ends it, forms.

mod common;
use common::calls::*;
use common::*;
use independent::generate::model::{ClassModel, MethodModel};

#[test]
fn the_class_itself_comes_first() {
    let base = || class(&[], body(ALL));
    let own = |methods| vec![base(), class(&[(0, 0)], methods)];
    assert_eq!(number(own(vec![method(VISIBLE, 7, NOBODY)]), 0x8B), 19);
    assert_eq!(number(own(vec![method(VISIBLE, 7, ALL)]), 0x8B), 0);
    assert_eq!(number(own(vec![]), 0x8B), 0);
    let sub = |methods| vec![interface(&[], open()), interface(&[(0, 0)], methods)];
    assert_eq!(number(sub(closed()), 0x8E), 19);
    assert_eq!(number(sub(vec![]), 0x8E), 0);
}

#[test]
fn the_kind_0_chain_comes_before_interfaces() {
    // Above the class: a chain of two, and an interface that is listed first.
    let classes = |chain: Vec<MethodModel>, of_interface| {
        vec![
            class(&[], chain),
            class(&[(0, 0)], vec![]),
            interface(&[], of_interface),
            class(&[(0, 2), (0, 1)], vec![]),
        ]
    };
    assert_eq!(number(classes(body(NOBODY), closed()), 0x8B), 19);
    assert_eq!(number(classes(body(ALL), closed()), 0x8B), 0);
    assert_eq!(number(classes(vec![], closed()), 0x8B), 19);
    assert_eq!(number(classes(vec![], open()), 0x8B), 0);
    assert_eq!(number(classes(vec![], vec![]), 0x8B), 18);
}

#[test]
fn interfaces_of_the_class_come_before_those_of_its_parents() {
    let classes = |of_parent, of_class| {
        vec![
            interface(&[], of_parent),
            interface(&[], of_class),
            class(&[(0, 0)], vec![]),
            class(&[(0, 2), (0, 1)], vec![]),
        ]
    };
    for opcode in [0x8B, 0x8E] {
        assert_eq!(number(classes(open(), closed()), opcode), 19);
        assert_eq!(number(classes(closed(), open()), opcode), 0);
        assert_eq!(number(classes(closed(), vec![]), opcode), 19);
        assert_eq!(number(classes(open(), vec![]), opcode), 0);
    }
}

#[test]
fn interfaces_are_searched_depth_first_in_listed_order() {
    // Two interfaces, the first with one above it.
    let classes = |above, first, second, parents: [(u8, u8); 2]| {
        vec![
            interface(&[], above),
            interface(&[(0, 0)], first),
            interface(&[], second),
            class(&parents, vec![]),
        ]
    };
    let (listed, turned) = ([(0, 1), (0, 2)], [(0, 2), (0, 1)]);
    for opcode in [0x8B, 0x8E] {
        let number =
            |above, first, second, parents| number(classes(above, first, second, parents), opcode);
        // An interface before its own parents.
        assert_eq!(number(open(), closed(), vec![], listed), 19);
        assert_eq!(number(closed(), open(), vec![], listed), 0);
        // Its parents before the next one.
        assert_eq!(number(open(), vec![], closed(), listed), 0);
        assert_eq!(number(closed(), vec![], open(), listed), 19);
        // The order of the list.
        assert_eq!(number(vec![], closed(), open(), listed), 19);
        assert_eq!(number(vec![], closed(), open(), turned), 0);
        assert_eq!(number(open(), vec![], closed(), turned), 19);
    }
}

#[test]
fn a_declaration_of_any_form_ends_the_search() {
    let above = |bits, opcode| {
        let nearer = vec![method(bits, 7, ALL)];
        number(
            vec![
                class(&[], body(ALL)),
                class(&[(0, 0)], nearer),
                class(&[(0, 1)], vec![]),
            ],
            opcode,
        )
    };
    // Static, without code, with code.
    assert_eq!([0x8B, 0x8C, 0x8D].map(|o| above(STATIC, o)), [18, 0, 0]);
    assert_eq!([0x8B, 0x8C, 0x8D].map(|o| above(0, o)), [0, 18, 18]);
    assert_eq!([0x8B, 0x8C, 0x8D].map(|o| above(BODY, o)), [0, 0, 18]);
    // A class's declaration ends a search for an interface's.
    let below = |bits, opcode| {
        let nearer = class(&[(0, 0)], vec![method(bits, 7, ALL)]);
        number(
            vec![interface(&[], open()), nearer, class(&[(0, 1)], vec![])],
            opcode,
        )
    };
    assert_eq!(below(BODY, 0x8E), 18);
    assert_eq!(below(STATIC, 0x8E), 18);
    assert_eq!(below(0, 0x8E), 18);
}

/// Makes a class of one kind from its parents and methods.
type Make = fn(&[(u8, u8)], Vec<MethodModel>) -> ClassModel;

#[test]
fn forms_by_the_class_named_and_the_declaration() {
    let classes = |named: Make| vec![interface(&[], open()), named(&[(0, 0)], vec![])];
    // 8B may end at an interface's declaration where the class named is of kind 0; 8E may name
    // a class of kind 0.
    let by_class = [0x8B, 0x8C, 0x8D, 0x8E].map(|o| number(classes(class), o));
    assert_eq!(by_class, [0, 18, 18, 0]);
    let by_interface = [0x8B, 0x8C, 0x8D, 0x8E].map(|o| number(classes(interface), o));
    assert_eq!(by_interface, [18, 18, 18, 0]);
    // 8E does not end at a class's declaration.
    let inherited = || vec![class(&[], body(ALL)), class(&[(0, 0)], vec![])];
    let by_chain = [0x8B, 0x8C, 0x8D, 0x8E].map(|o| number(inherited(), o));
    assert_eq!(by_chain, [0, 0, 18, 18]);
}
