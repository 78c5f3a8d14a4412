//! The store's layout and soundness.

mod common;
use common::*;
use independent::generate::limits::chain;
use independent::ledger::{Entry, Ledger};
use independent::questions::q2;

fn sound(entries: Vec<Entry>, length: usize) -> bool {
    let mut ledger = Ledger::new(length);
    ledger.entries = entries;
    q2(&ledger.written_out(length)).is_some()
}

fn domain(aid: &[u8]) -> Entry {
    Entry::domain(aid)
}

fn loaded(domain: &[u8], file: Vec<u8>) -> Entry {
    let domain = domain.to_vec();
    Entry::Package { domain, file }
}

#[test]
fn order_counts() {
    let first = || loaded(D1, chain(P1, 0, 1).bytes());
    let second = || loaded(D1, importing(chain(P2, 0, 1), &[P1]).bytes());
    assert!(sound(vec![domain(D1), first(), second()], 200));
    assert!(!sound(vec![domain(D1), second(), first()], 200));
    assert!(!sound(vec![first(), domain(D1)], 200));
    assert!(!sound(vec![domain(D1), domain(D1)], 200));
    assert!(!sound(vec![domain(D1), first(), first()], 200));
}

#[test]
fn domain_aids_in_entries() {
    for (length, expected) in [(0, false), (4, false), (5, true), (16, true), (17, false)] {
        assert_eq!(sound(vec![domain(&vec![1; length])], 64), expected);
    }
    assert!(!sound(vec![domain(D1), loaded(&[], vec![])], 64));
    assert!(!sound(
        vec![domain(D1), loaded(D2, chain(P1, 0, 1).bytes())],
        64
    ));
}

#[test]
fn layout() {
    let good = store(64);
    assert!(q2(&good).is_some());
    // Mark, version, used, kind, length, and the zeros at the end.
    for place in [0, 1, 2, 3, 4, 5, 6, 7, 8, 9, 23, 40, 63] {
        let mut store = good.clone();
        store[place] ^= 1;
        assert!(q2(&store).is_none(), "{place}");
    }
    let mut store = good.clone();
    store[12] ^= 1;
    assert!(q2(&store).is_some());
    for used in [0, 6, 8, 15, 22, 24, 64, 65] {
        let mut store = good.clone();
        store[6] = used;
        assert!(q2(&store).is_none(), "{used}");
    }
    // Used 15 is the end of the first domain, and right where zeros follow it.
    let mut store = good.clone();
    store[6] = 15;
    store[15..].fill(0);
    assert!(q2(&store).is_some());
    let mut store = good;
    store[6] = 7;
    assert!(q2(&store).is_none());
    store[7..].fill(0);
    assert!(q2(&store).is_some());
}

#[test]
fn bytes_of_a_package_entry() {
    let mut ledger = Ledger::new(64);
    ledger.entries = vec![domain(D1), loaded(D1, chain(P1, 0, 0).bytes())];
    let expected = "424353 0001 002A 01 0005 A0000000D1 02 0018 05A0000000D1 \
        42504B 0001 0012 05A000000101 00 00 0000 00";
    let mut bytes: Vec<u8> = Vec::new();
    let digits: Vec<char> = expected.chars().filter(|c| *c != ' ').collect();
    for pair in digits.chunks(2) {
        bytes.push(u8::from_str_radix(&pair.iter().collect::<String>(), 16).unwrap());
    }
    bytes.resize(64, 0);
    assert_eq!(ledger.written_out(64), bytes);
}
