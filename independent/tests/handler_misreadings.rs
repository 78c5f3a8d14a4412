//! Generated sequences and fixed ones find wrong readings of version 2 and its handlers.

mod common;
use common::misread::{assert_found, differs};
use independent::generate::handler_cases::{handlers_of_codes, limits, orders, version_pairs};
use independent::handler_faults::HandlerFault;
use independent::misreadings::Misreading;

/// Among this many generated sequences, one shows a misreading.
const SEQUENCES: u64 = 1200;

/// The most steps that are left of it: four packages in two domains and a further call.
const MOST_STEPS: usize = 8;

#[test]
fn misreadings_are_found() {
    let all = Misreading::HANDLERS.into_iter();
    all.for_each(|misreading| assert_found(misreading, SEQUENCES, MOST_STEPS));
}

#[test]
fn each_fault_has_its_misreading() {
    for fault in HandlerFault::ALONE {
        assert!(Misreading::HANDLERS.contains(&Misreading::Forgiven(fault)));
    }
}

#[test]
fn handlers_of_short_codes_find_every_fault() {
    let sequences = handlers_of_codes();
    for fault in HandlerFault::ALONE {
        let found = |s| differs(Misreading::Forgiven(fault), s);
        assert!(sequences.iter().any(found), "{fault:?}");
    }
    for misreading in [Misreading::EndBelowLength, Misreading::TargetOutside] {
        assert!(
            sequences.iter().any(|s| differs(misreading, s)),
            "{misreading:?}"
        );
    }
}

#[test]
fn limits_find_what_is_laid_out_otherwise() {
    let laid_out = [
        Misreading::InOrder,
        Misreading::Apart,
        Misreading::Once,
        Misreading::FirstAlone,
        Misreading::VersionZero,
        Misreading::VersionThree,
        Misreading::LowByteAlone,
        Misreading::HandlersInFirst,
        Misreading::NoneInSecond,
        Misreading::CountOfEach,
        Misreading::Most17,
        Misreading::Most15,
        Misreading::CutOff,
        Misreading::OffsetsIn11,
    ];
    let sequence = limits();
    for misreading in laid_out {
        assert!(differs(misreading, &sequence), "{misreading:?}");
    }
}

#[test]
fn two_methods_with_faults_find_another_order() {
    let sequence = orders();
    let another = [
        Misreading::Before17,
        Misreading::After18,
        Misreading::MethodByMethod,
        Misreading::RangeUncalled,
        Misreading::HandlerUncalled,
    ];
    for misreading in another {
        assert!(differs(misreading, &sequence), "{misreading:?}");
    }
}

#[test]
fn packages_of_both_versions_find_calls_left_out() {
    let sequences = version_pairs();
    let left_out = [
        Misreading::VersionsApart,
        Misreading::RangeUncalled,
        Misreading::HandlerUncalled,
    ];
    for misreading in left_out {
        assert!(
            sequences.iter().any(|s| differs(misreading, s)),
            "{misreading:?}"
        );
    }
}
