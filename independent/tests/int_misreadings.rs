//! Generated sequences and fixed ones find wrong readings of domains without int.

mod common;
use common::misread::{assert_found, differs};
use independent::generate::int_cases::{instructions, opcodes, orders};
use independent::generate::kind_cases::{domains, kinds, meetings, rooms};
use independent::loader::Sequence;
use independent::misread_int::IntMisreading::{self, *};
use independent::misreadings::Misreading;
use independent::without_int::TYPED;

/// Among this many generated sequences, one shows a misreading.
const SEQUENCES: u64 = 1200;

/// The most steps that are left of it.
const MOST_STEPS: usize = 8;

#[test]
fn misreadings_are_found() {
    for wrong in IntMisreading::ALL {
        assert_found(Misreading::WithoutInt(wrong), SEQUENCES, MOST_STEPS);
    }
}

/// Each of the readings is told apart by one of the sequences.
fn assert_told(sequences: &[Sequence], readings: &[IntMisreading]) {
    for &wrong in readings {
        let found = |s| differs(Misreading::WithoutInt(wrong), s);
        assert!(sequences.iter().any(found), "{wrong:?}");
    }
}

#[test]
fn every_instruction_tells_every_opcode_taken_the_other_way() {
    let all: Vec<IntMisreading> = opcodes().map(Opcode).collect();
    assert_eq!(all.len(), 0xB9);
    assert_told(&instructions()[..1], &all);
}

#[test]
fn every_instruction_finds_what_is_looked_at_otherwise() {
    let types = TYPED.iter().flat_map(|&t| [AnyType(t), Type0C(t)]);
    let mut readings: Vec<IntMisreading> = types.collect();
    readings.extend([LaterType(0x94), LaterType(0x95)]);
    readings.extend([OddToo, Operands, DeadPassed, LastPassed, FirstCode]);
    readings.extend([EveryDomain, NotAsked]);
    instructions()
        .iter()
        .for_each(|s| assert_told(std::slice::from_ref(s), &readings));
}

#[test]
fn three_codes_with_faults_find_another_order() {
    let another = [Before17, Before24, After18, With18, MethodByMethod];
    assert_told(&orders(), &[&another[..], &[FirstCode, NotAsked]].concat());
}

#[test]
fn domains_find_kinds_told_apart() {
    let apart = [ApartIn4, DeletesFirst, LoadsFirst, WritesFirst, NoThird];
    for sequence in domains() {
        assert_told(&[sequence], &apart);
    }
    assert_told(&rooms(), &[DeletesFirst, WritesFirst, NoThird]);
}

#[test]
fn kinds_of_entries_find_other_kinds() {
    let other = [ZeroIsFirst, FourIsThird, NoThird, NotInSoundness, ApartIn4];
    for sequence in kinds() {
        assert_told(&[sequence], &other);
    }
}

#[test]
fn packages_that_meet_find_the_kind_of_another_domain() {
    let another = [OfImporters, OfImports, KindOfImport, EveryDomain, NotAsked];
    for sequence in meetings() {
        assert_told(&[sequence], &another);
    }
}
