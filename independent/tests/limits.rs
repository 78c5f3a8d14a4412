//! Request 12, hand-made: stores of version 2, their limits, and fresh with limits.

mod common;
use common::*;
use independent::generate::limit_cases::edges;
use independent::ledger::{Call, Ledger};
use independent::limits::Limits;
use independent::loader::{Independent, Loader};
use independent::operations::{create, delete, fresh, fresh_limits, load, query, remove};
use independent::questions::q2;
use independent::store::StoreVersion;

/// The paper's ranges.
fn in_range(limits: Limits) -> bool {
    (1..=16).contains(&limits.depth)
        && (1..=8).contains(&limits.parents)
        && (1..=32_767).contains(&limits.code)
}

#[test]
fn fresh_limits_numbers_and_bytes() {
    for length in [0, 10, 63, 64, 65, 65_535, 65_536] {
        for limits in edges() {
            let mut store = vec![0xEE; length];
            let number = match (64..=65_535).contains(&length) {
                false => 1,
                true if in_range(limits) => 0,
                true => 30,
            };
            assert_eq!(fresh_limits(&mut store, limits).encoded(), number);
            if number != 0 {
                assert!(store.iter().all(|&b| b == 0xEE), "{limits:?}");
                continue;
            }
            let Limits {
                depth,
                parents,
                code,
            } = limits;
            let [high, low] = [(code >> 8) as u8, code as u8];
            let opening = [0x42, 0x43, 0x53, 0, 2, 0, 11, depth, parents, high, low];
            assert_eq!(store[..11], opening);
            assert!(store[11..].iter().all(|&b| b == 0));
        }
    }
}

#[test]
fn refused_limits_leave_a_store_of_either_version() {
    for mut store in [store(200), limited(Limits::LEAST)] {
        let before = store.clone();
        assert_eq!(fresh_limits(&mut store, Limits::new(0, 4, 9)).encoded(), 30);
        assert_eq!(store, before);
        assert!(q2(&store).is_some());
    }
}

#[test]
fn fresh_goes_on_writing_version_1() {
    let mut store = limited(Limits::GREATEST);
    assert_eq!(fresh(&mut store).encoded(), 0);
    assert_eq!(store[..7], [0x42, 0x43, 0x53, 0, 1, 0, 7]);
    assert!(store[7..].iter().all(|&b| b == 0));
    assert_eq!(StoreVersion::of(&store), Some(StoreVersion::First));
}

#[test]
fn a_stored_limit_out_of_range_is_2_for_every_call_but_fresh() {
    for limits in edges() {
        let mut store = limited(Limits::STANDARD);
        store[7..11].copy_from_slice(&limits.bytes());
        let number = |right: u8| if in_range(limits) { right } else { 2 };
        assert_eq!(create(&mut store, D1).number, number(4), "{limits:?}");
        assert_eq!(delete(&mut store, D2).number, number(5));
        assert_eq!(load(&mut store, D1, &[]).number, number(10));
        assert_eq!(remove(&mut store, P1).number, number(7));
        assert_eq!(query(&store, D1, P1, 0, 1).number, number(7));
        assert_eq!(fresh_limits(&mut store.clone(), Limits::LEAST).number, 0);
        assert_eq!(fresh(&mut store).number, 0);
    }
}

#[test]
fn versions_and_used() {
    let mut empty = vec![0; 64];
    fresh_limits(&mut empty, Limits::STANDARD);
    for used in 0..=255 {
        let mut store = empty.clone();
        store[6] = used;
        assert_eq!(q2(&store).is_some(), used == 11, "{used}");
    }
    for version in 0..=u16::MAX {
        let mut store = empty.clone();
        store[3..5].copy_from_slice(&version.to_be_bytes());
        assert_eq!(q2(&store).is_some(), version == 2, "{version}");
    }
    let mut store = empty;
    assert_eq!(create(&mut store, &[1; 16]).number, 0);
    assert_eq!(create(&mut store, &[2; 16]).number, 0);
    assert_eq!(create(&mut store, &[3; 13]).number, 21);
    assert_eq!(create(&mut store, &[3; 12]).number, 0);
    assert_eq!(store[5..7], [0, 64]);
    for aid in [[1; 16].as_slice(), &[2; 16], &[3; 12]] {
        assert_eq!(delete(&mut store, aid).number, 0);
    }
    assert_eq!(store[5..11], [0, 11, 8, 4, 0x10, 0]);
    assert_eq!(store[11..], [0; 53]);
}

#[test]
fn the_ledger_is_written_out_in_the_version_of_the_last_fresh() {
    let limits = Limits::new(3, 2, 300);
    let calls = [
        Call::FreshLimits(limits),
        Call::Create(D1.to_vec()),
        Call::FreshLimits(Limits::new(3, 9, 300)),
        Call::Fresh,
        Call::Create(D2.to_vec()),
        Call::FreshLimits(Limits::GREATEST),
    ];
    let mut store = vec![0x5A; 64];
    let mut ledger = Ledger::new(64);
    let mut answers = Vec::new();
    for call in &calls {
        answers.push(Independent.call(&mut store, call));
        assert_eq!(ledger.call(call).encoded(), answers[answers.len() - 1]);
        assert_eq!(store, ledger.written_out(64));
    }
    assert_eq!(answers, [0, 0, 30, 0, 0, 0]);
    assert_eq!(
        store[..11],
        [0x42, 0x43, 0x53, 0, 2, 0, 11, 16, 8, 0x7F, 0xFF]
    );
}
