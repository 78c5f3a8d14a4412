//! Request 12, hand-made: files by the limits of the store.

mod common;
use common::*;
use independent::generate::chosen_limits::ladder_of;
use independent::generate::handler_cases::of_version;
use independent::generate::limit_cases::{across, CHOSEN};
use independent::generate::limits::{chain, plain_code};
use independent::generate::model::FileModel;
use independent::ledger::{Call, Entry, Ledger};
use independent::limits::{Limit, Limits};
use independent::operations::load;
use independent::package::Version;
use independent::questions::q2;
use independent::store::StoreVersion;

/// The answer of a load in D1 over such a store.
fn answer(limits: Limits, model: &FileModel) -> u32 {
    load(&mut limited(limits), D1, &model.bytes()).encoded()
}

/// A package with a class of so many parents, one with such a code, a chain so deep.
fn with(limit: Limit, number: u16) -> FileModel {
    match limit {
        Limit::Depth => chain(P1, 1, number as u8),
        Limit::Parents => interfaces(P1, &[&[], &vec![(0, 0); number.into()]]),
        Limit::Code => with_code(&plain_code(number.into())),
    }
}

#[test]
fn each_limit_at_its_value_and_one_past() {
    let at = [
        1, 2, 3, 4, 5, 7, 8, 9, 15, 16, 4_095, 4_096, 4_097, 32_766, 32_767,
    ];
    let refused = [(Limit::Depth, 14), (Limit::Parents, 11), (Limit::Code, 11)];
    for (limit, number) in refused {
        for most in at.map(|n| n.min(Limits::GREATEST.of(limit))) {
            let limits = Limits::GREATEST.with(limit, most);
            for version in Version::BOTH {
                let answers = [most, most + 1].map(|n| {
                    let model = of_version(version, with(limit, n));
                    answer(limits, &model) & 0xFF
                });
                assert_eq!(answers, [0, number], "{limit:?} {most}");
            }
        }
    }
}

#[test]
fn no_limit_stands_for_another() {
    for limits in CHOSEN.into_iter().filter(|l| l.depth > 1) {
        let Limits {
            depth,
            parents,
            code,
        } = limits;
        assert_eq!(
            answer(limits, &with(Limit::Depth, depth.into())),
            u32::from(depth) << 8
        );
        assert_eq!(
            answer(limits, &with(Limit::Parents, parents.into())),
            2 << 8
        );
        assert_eq!(answer(limits, &with(Limit::Code, code)), 1 << 8);
        let levels = answer(limits, &ladder_of(P1, limits, 1));
        assert_eq!(levels, u32::from(depth) << 8);
    }
    // 11 is asked of the whole file before 14.
    let mut both = with(Limit::Depth, 3);
    both.classes.extend(with(Limit::Parents, 3).classes);
    assert_eq!(answer(Limits::new(2, 2, 9), &both), 11);
    assert_eq!(answer(Limits::new(2, 3, 9), &both), 14);
    assert_eq!(answer(Limits::new(3, 3, 9), &both), 3 << 8);
}

#[test]
fn depth_goes_on_through_packages() {
    for limits in CHOSEN {
        let mut store = limited(limits);
        for call in across(limits, Version::First) {
            let Call::Load { file, .. } = call else {
                continue;
            };
            let level = u32::from(file[12]);
            let most = u32::from(limits.depth);
            let expected = match level {
                101 => most << 8,
                past if past > most => 14,
                _ => level << 8,
            };
            assert_eq!(
                load(&mut store, D1, &file).encoded(),
                expected,
                "{limits:?}"
            );
        }
    }
}

#[test]
fn version_1_means_8_4_and_4096() {
    for version in Version::BOTH {
        for (limit, number) in [(Limit::Depth, 14), (Limit::Parents, 11), (Limit::Code, 11)] {
            let most = Limits::STANDARD.of(limit);
            let numbers = [most, most + 1].map(|n| judged(&of_version(version, with(limit, n))));
            assert_eq!(numbers, [0, number]);
        }
    }
}

#[test]
fn soundness_judges_packages_by_the_stores_limits() {
    for limit in Limit::ALL {
        for (number, sound) in [(2, false), (3, true), (4, true)] {
            let mut ledger = Ledger::new(300);
            ledger.version = StoreVersion::Second(Limits::STANDARD.with(limit, number));
            let (domain, file) = (D1.to_vec(), with(limit, 3).bytes());
            ledger.entries = vec![Entry::domain(D1), Entry::Package { domain, file }];
            let found = q2(&ledger.written_out(300)).is_some();
            assert_eq!(found, sound, "{limit:?} {number}");
        }
    }
}
