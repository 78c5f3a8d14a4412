//! The origin of a depth figure, and counts of loads by it.

mod common;
use common::*;
use independent::depths::{origin, DepthCounts};
use independent::generate::limits::chain;
use independent::operations::load;

/// The store after a load of interfaces with these parents in P2, which imports P1, a
/// chain of three; and the figure that the load carries.
fn loaded(parents: &[&[(u8, u8)]]) -> (Vec<u8>, u32) {
    let mut store = store_with(&[chain(P1, 1, 3)]);
    let model = importing(interfaces(P2, parents), &[P1]);
    let answer = load(&mut store, D1, &model.bytes());
    assert_eq!(answer.number, 0);
    (store, answer.figure.into())
}

/// Is the deepest class not the last, and does its depth come through the store?
fn both(parents: &[&[(u8, u8)]]) -> [bool; 2] {
    let found = origin(&loaded(parents).0).unwrap();
    [found.not_last, found.through_store]
}

#[test]
fn origins() {
    assert_eq!(both(&[]), [false, false]);
    assert_eq!(both(&[&[], &[]]), [false, false]);
    assert_eq!(both(&[&[], &[(0, 0)]]), [false, false]);
    assert_eq!(both(&[&[], &[(0, 0)], &[(0, 1), (0, 0)]]), [false, false]);
    assert_eq!(both(&[&[], &[(0, 0)], &[]]), [true, false]);
    assert_eq!(both(&[&[(1, 2)]]), [false, true]);
    assert_eq!(both(&[&[(1, 0)], &[]]), [true, true]);
    // A second class is as deep, by own parents alone.
    assert_eq!(both(&[&[(1, 0)], &[], &[(0, 1)]]), [false, false]);
    // Own and installed parents in one list, the one or the other deeper.
    assert_eq!(both(&[&[], &[(0, 0)], &[(0, 1), (1, 1)]]), [false, false]);
    assert_eq!(both(&[&[], &[(0, 0)], &[(0, 1), (1, 2)]]), [false, true]);
    // The installed class is a parent's parent.
    assert_eq!(both(&[&[(1, 1)], &[(0, 0)], &[(0, 0)]]), [false, true]);
    assert_eq!(both(&[&[(1, 1)], &[(0, 0)], &[]]), [true, true]);
}

#[test]
fn stores_without_a_package_or_unsound() {
    assert_eq!(origin(&store(64)), None);
    assert_eq!(origin(&[0; 64]), None);
}

#[test]
fn shortfalls() {
    let mut counts = DepthCounts::default();
    assert_eq!(counts.shortfalls(0).len(), 0);
    assert_eq!(counts.shortfalls(1).len(), 19);
    let mut left_after = |parents: &[&[(u8, u8)]], least: u64| {
        let (store, figure) = loaded(parents);
        counts.note(figure, &store);
        counts.shortfalls(least)
    };
    // Depth 2, not the last.
    let left = left_after(&[&[], &[(0, 0)], &[]], 1);
    assert_eq!(left.len(), 17);
    assert!(!left.contains(&"loads carried depth 2 only 0 times".into()));
    assert!(left.contains(&"the depth came through the store only 0 times".into()));
    // Depth 4, through the store.
    let left = left_after(&[&[(1, 2)]], 1);
    assert_eq!(left.len(), 15);
    assert!(left.contains(&"loads carried depth 3 only 0 times".into()));
    // Depth 0, once and twice.
    assert_eq!(left_after(&[], 2).len(), 19);
    assert_eq!(left_after(&[], 2).len(), 18);
}
