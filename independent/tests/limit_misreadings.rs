//! Generated sequences and fixed ones find wrong readings of limits.

mod common;
use common::misread::{assert_found, differs};
use independent::generate::limit_cases::{at_limits, given, stored};
use independent::limits::Limit;
use independent::loader::Sequence;
use independent::misread_limits::LimitMisreading;
use independent::misreadings::Misreading;

/// Among this many generated sequences, one shows a misreading.
const SEQUENCES: u64 = 2500;

/// The most steps that are left of it.
const MOST_STEPS: usize = 8;

#[test]
fn misreadings_are_found() {
    for wrong in LimitMisreading::all() {
        assert_found(Misreading::Limits(wrong), SEQUENCES, MOST_STEPS);
    }
}

/// Each of the readings is told apart by one of the sequences.
fn assert_told(sequences: &[Sequence], readings: &[LimitMisreading]) {
    for &wrong in readings {
        let found = |s| differs(Misreading::Limits(wrong), s);
        assert!(sequences.iter().any(found), "{wrong:?}");
    }
}

/// A reading for each limit.
fn each(readings: &[fn(Limit) -> LimitMisreading]) -> Vec<LimitMisreading> {
    let of = |make: &fn(Limit) -> LimitMisreading| Limit::ALL.map(make);
    readings.iter().flat_map(of).collect()
}

#[test]
fn given_limits_find_other_ranges() {
    use LimitMisreading::*;
    let one = [WritesAt30, Before1, AlwaysSecond, StandardIsFirst];
    let ranges = each(&[GivenZero, GivenPast, GreatestOut, OneOut]);
    assert_told(&given(), &[&one[..], &ranges].concat());
}

#[test]
fn stored_limits_find_other_ranges_and_openings() {
    use LimitMisreading::*;
    let openings = [
        FirstAlone,
        VersionThree,
        LowByteAlone,
        UsedFrom7,
        EntriesFrom7,
        Swapped,
        NotInSoundness,
    ];
    let ranges = each(&[StoredZero, StoredPast, GreatestOut, OneOut]);
    assert_told(&stored(), &[&openings[..], &ranges].concat());
}

#[test]
fn files_at_limits_find_other_limits() {
    use LimitMisreading::*;
    let one = [OfTheFile, GreatestInFirst, Swapped, LowByteFirst];
    let limits = each(&[OneLess, OneMore, Standard]);
    assert_told(&at_limits(), &[&one[..], &limits].concat());
}
