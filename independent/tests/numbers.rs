//! Each number of each operation.

mod common;
use common::*;
use independent::generate::handler_cases::with_handler;
use independent::generate::limits::chain;
use independent::handlers::Handler;
use independent::operations::{create, delete, fresh, load, query, remove};
use independent::Answer;

fn unsound() -> Vec<u8> {
    let mut store = store(200);
    store[199] = 1;
    store
}

#[test]
fn fresh_numbers() {
    for (length, number) in [(0, 1), (63, 1), (64, 0), (65_535, 0), (65_536, 1)] {
        let mut store = vec![0xEE; length];
        assert_eq!(fresh(&mut store).encoded(), number);
        if number == 0 {
            assert_eq!(store[..7], [0x42, 0x43, 0x53, 0, 1, 0, 7]);
            assert!(store[7..].iter().all(|&b| b == 0));
        } else {
            assert!(store.iter().all(|&b| b == 0xEE));
        }
    }
}

#[test]
fn create_numbers() {
    assert_eq!(create(&mut [0; 63], D1).number, 1);
    assert_eq!(create(&mut unsound(), &[]).number, 2);
    for length in [0, 4, 17, 256, 70_000] {
        assert_eq!(create(&mut store(64), &vec![9; length]).number, 3);
    }
    assert_eq!(create(&mut store(64), D2).number, 4);
    // 64 - 7 - 16 leaves 41 bytes: 16 AID bytes twice and three more.
    let mut store = store(64);
    assert_eq!(create(&mut store, &[1; 16]).number, 0);
    assert_eq!(create(&mut store, &[2; 16]).number, 0);
    assert_eq!(create(&mut store, &[3; 5]).number, 21);
}

#[test]
fn create_to_the_last_byte() {
    let mut store = store(64);
    let sizes = [(16, 0), (16, 0)];
    for (number, (length, answer)) in sizes.into_iter().enumerate() {
        let aid = vec![number as u8; length];
        assert_eq!(create(&mut store, &aid).number, answer);
    }
    assert_eq!(delete(&mut store, D1).number, 0);
    assert_eq!(create(&mut store, &[5; 9]).number, 21);
    assert_eq!(create(&mut store, &[5; 8]).number, 0);
    assert_eq!(store[5..7], [0, 64]);
    assert_eq!(delete(&mut store, &[5; 8]).number, 0);
    assert_eq!(store[53..], [0; 11]);
}

#[test]
fn delete_numbers() {
    assert_eq!(delete(&mut [0; 63], D1).number, 1);
    assert_eq!(delete(&mut unsound(), &[]).number, 2);
    assert_eq!(delete(&mut store(64), &[9; 4]).number, 3);
    assert_eq!(delete(&mut store(64), &[9; 5]).number, 5);
    let mut store = store(200);
    assert_eq!(load(&mut store, D1, &chain(P1, 0, 1).bytes()).number, 0);
    assert_eq!(delete(&mut store, D1).number, 6);
    assert_eq!(delete(&mut store, D2).number, 0);
    assert_eq!(delete(&mut store, D2).number, 5);
    assert_eq!(create(&mut store, D2).number, 0);
}

#[test]
fn load_numbers() {
    let file = chain(P1, 0, 4).bytes();
    assert_eq!(load(&mut [0; 63], D1, &file).number, 1);
    assert_eq!(load(&mut unsound(), &[], &[]).number, 2);
    assert_eq!(load(&mut store(200), &[9; 17], &[]).number, 3);
    assert_eq!(load(&mut store(200), &[9; 5], &[]).number, 5);
    assert_eq!(load(&mut store(200), D1, &[]).number, 10);
    assert_eq!(load(&mut store(200), D1, &file[..4]).number, 10);
    assert_eq!(load(&mut store(200), D1, &file[..5]).number, 11);
    for (handler, number) in [(Handler::new(0, 1, 0), 0), (Handler::new(0, 1, 1), 24)] {
        let file = with_handler(&[0x7A], handler).bytes();
        assert_eq!(load(&mut store(200), D1, &file).number, number);
    }
    for (domain, number) in [(D1, 0), (D3, 26)] {
        let file = with_code(&[0x0A, 0x7A]).bytes();
        assert_eq!(load(&mut store_of_both(200), domain, &file).number, number);
    }
    let done = Answer {
        number: 0,
        figure: 4,
    };
    let mut full = store(200);
    assert_eq!(load(&mut full, D1, &file), done);
    assert_eq!(load(&mut full, D2, &file).encoded(), 12);
    let length = 23 + 3 + 1 + D1.len() + file.len();
    assert_eq!(load(&mut store(length), D1, &file), done);
    assert_eq!(load(&mut store(length - 1), D1, &file).encoded(), 21);
    assert_eq!(
        load(&mut store(200), D1, &chain(P1, 0, 0).bytes()).encoded(),
        0
    );
}

#[test]
fn remove_numbers() {
    assert_eq!(remove(&mut [0; 65_536], P1).number, 1);
    assert_eq!(remove(&mut unsound(), &[]).number, 2);
    assert_eq!(remove(&mut store(64), &[9; 17]).number, 3);
    assert_eq!(remove(&mut store(64), D1).number, 7);
    let mut store = store(300);
    let before = store.clone();
    let importer = importing(chain(P2, 0, 1), &[P1]);
    assert_eq!(load(&mut store, D1, &importer.bytes()).number, 13);
    assert_eq!(load(&mut store, D1, &chain(P1, 0, 1).bytes()).number, 0);
    assert_eq!(load(&mut store, D2, &importer.bytes()).number, 0);
    assert_eq!(remove(&mut store, P1).number, 8);
    assert_eq!(remove(&mut store, P2).number, 0);
    assert_eq!(remove(&mut store, P1).number, 0);
    assert_eq!(store, before);
}

#[test]
fn query_numbers() {
    assert_eq!(query(&[0; 63], D1, P1, 0, 1).encoded(), 1);
    assert_eq!(query(&unsound(), &[], &[], 0, 1).encoded(), 2);
    let mut store = store(300);
    assert_eq!(query(&store, &[9; 4], P1, 0, 1).encoded(), 3);
    assert_eq!(query(&store, D1, &[9; 4], 0, 1).encoded(), 3);
    assert_eq!(query(&store, D1, P1, 0, 1).encoded(), 7);
    let methods = vec![
        method(0, 1, Some(&[1])),
        method(STATIC, 2, None),
        method(BODY, 3, Some(&[])),
    ];
    let file = package(P1, vec![class(&[], methods), class(&[(0, 0)], vec![])]).bytes();
    assert_eq!(load(&mut store, D1, &file).encoded(), 0x200);
    let cases = [(0, 4, 9), (1, 1, 9), (2, 1, 9), (255, 1, 9)];
    for (class, name, number) in cases {
        assert_eq!(query(&store, D1, P1, class, name).encoded(), number);
    }
    assert_eq!(query(&store, D1, P1, 0, 1).encoded(), 0);
    assert_eq!(query(&store, D2, P1, 0, 1).encoded(), 256);
    assert_eq!(query(&store, &[7; 16], P1, 0, 2).encoded(), 256);
    assert_eq!(query(&store, D1, P1, 0, 3).encoded(), 0);
}
