//! Request 7, hand-made: versions 1 and 2, handlers, and question 24.

mod common;
use common::*;
use independent::generate::handler_cases::{
    among_bare, every_handler, of_version, with_code_faults, with_handler, CODES, FAULTS,
};
use independent::generate::handler_limits::{handler_limits, CODE};
use independent::generate::limits::chain;
use independent::generate::model::FileModel;
use independent::handler_faults::HandlerFault;
use independent::handlers::Handler;
use independent::ledger::{Entry, Ledger};
use independent::operations::{load, query, remove};
use independent::package::Version;
use independent::questions::q2;

/// The offsets where the instructions of `CODES` start.
const STARTS: [&[usize]; 6] = [&[0], &[0, 1], &[0, 2], &[0], &[0, 1], &[0, 3, 5, 6]];

/// The number of a load in D1.
fn number(file: &[u8]) -> u8 {
    load(&mut store(8192), D1, file).number
}

/// A package of P1 with this code, in version 2 with these handlers.
fn handled(code: &[u8], handlers: &[(u16, u16, u16)]) -> FileModel {
    let mut model = with_code(code);
    model.version = Version::Second;
    let handlers = handlers.iter().map(|&(s, e, t)| Handler::new(s, e, t));
    model.classes[0].methods[0].handlers = handlers.collect();
    model
}

#[test]
fn limits_at_their_value_and_one_past() {
    for limit in handler_limits(P1) {
        assert_eq!(number(&limit.file), limit.number, "{}", limit.name);
    }
}

/// Question 24 by the paper's words, offset by offset.
fn good(handler: Handler, length: usize, starts: &[usize]) -> bool {
    let [start, end, target] = [handler.start, handler.end, handler.target].map(usize::from);
    let covered: Vec<usize> = (start..end).collect();
    !covered.is_empty()
        && covered.iter().all(|&offset| offset < length)
        && starts.contains(&start)
        && starts.contains(&target)
        && starts.iter().chain([&length]).any(|&offset| offset == end)
}

#[test]
fn every_handler_of_short_codes() {
    let mut counts = [0; 2];
    for (code, starts) in CODES.iter().zip(STARTS) {
        for handler in every_handler(code) {
            let right = good(handler, code.len(), starts);
            let answer = number(&with_handler(code, handler).bytes());
            assert_eq!(
                answer,
                if right { 0 } else { 24 },
                "{code:02X?}, {handler:?}"
            );
            let faults = HandlerFault::of(handler, code.len(), starts);
            assert_eq!(faults.is_empty(), right, "{handler:?}, {faults:?}");
            counts[usize::from(right)] += 1;
        }
    }
    assert!(counts[0] > 1000 && counts[1] > 50, "{counts:?}");
}

#[test]
fn each_question_is_asked_of_the_whole_file_before_the_next() {
    let place = |fault: &u8| [16, 17, 24, 18, 19, 0].iter().position(|q| q == fault);
    for first in FAULTS {
        for second in FAULTS {
            for third in FAULTS {
                let faults = [first, second, third];
                let right = faults.iter().min_by_key(|fault| place(fault));
                let answer = number(&with_code_faults(&faults).bytes());
                assert_eq!(Some(&answer), right, "{faults:?}");
            }
        }
    }
}

#[test]
fn the_questions_before_16_come_before_24() {
    let bad = || handled(CODE, &[(0, 7, 7)]);
    assert_eq!(number(&bad().bytes()), 24);
    let mut file = bad().bytes();
    file[4] = 3;
    assert_eq!(number(&file), 10);
    file[4] = 1;
    assert_eq!(number(&file), 11);
    assert_eq!(judged_after(&[chain(P1, 0, 1)], &bad()), 12);
    assert_eq!(judged(&importing(bad(), &[P2])), 13);
    let mut model = bad();
    model.classes[0].parents = vec![(0, 0)];
    assert_eq!(judged(&model), 14);
    let mut model = bad();
    model.classes[0].kind = 1;
    assert_eq!(judged(&model), 15);
}

#[test]
fn q24_comes_before_20_and_21() {
    let narrower = |handler: Handler| {
        let base = class(&[], vec![method(BODY, 7, None)]);
        let mut below = class(&[(0, 0)], vec![method(BODY, 7, Some(&[0]))]);
        below.methods[0].handlers = vec![handler];
        let mut model = package(P1, vec![base, below]);
        model.version = Version::Second;
        judged(&model)
    };
    assert_eq!(narrower(Handler::new(0, 1, 0)), 20);
    assert_eq!(narrower(Handler::new(0, 1, 1)), 24);
    let full = |handlers: &[_]| load(&mut store(64), D1, &handled(CODE, handlers).bytes());
    assert_eq!(full(&[(0, 7, 0)]).encoded(), 21);
    assert_eq!(full(&[(0, 7, 7)]).encoded(), 24);
}

#[test]
fn the_same_code_splits_alike_in_both_versions() {
    let codes: [&[u8]; 5] = [
        &[0x7A],
        &[0x00],
        &[0x70, 0x00],
        &[0x70, 0x01],
        &[0x11, 0x8D, 0, 0x7A],
    ];
    for code in codes {
        let mut model = with_code(code);
        let first = judged(&model);
        model.version = Version::Second;
        assert_eq!(judged(&model), first, "{code:02X?}");
    }
}

#[test]
fn a_method_without_a_code_has_no_count() {
    let file = among_bare(P1).bytes();
    assert_eq!(number(&file), 0);
    let interfaces = interface(&[], vec![method(0, 1, None), method(VISIBLE, 2, None)]);
    let model = of_version(Version::Second, package(P1, vec![interfaces]));
    assert_eq!(judged(&model), 0);
    let first = FileModel {
        version: Version::First,
        ..model.clone()
    };
    assert_eq!(model.bytes().len(), first.bytes().len());
}

#[test]
fn a_handler_adds_nothing_but_its_bytes() {
    // Count and one handler are seven bytes; the depth and the policy are as before.
    let [first, second] = Version::BOTH.map(|v| of_version(v, chain(P1, 0, 3)));
    assert_eq!(first.bytes().len(), second.bytes().len());
    let (plain, handled) = (with_code(CODE), handled(CODE, &[(0, 7, 0)]));
    assert_eq!(plain.bytes().len() + 7, handled.bytes().len());
    for model in [&plain, &handled] {
        let mut store = store(200);
        let used = store[6];
        assert_eq!(load(&mut store, D1, &model.bytes()).encoded(), 1 << 8);
        assert_eq!(usize::from(store[6] - used), 9 + model.bytes().len());
        assert_eq!(query(&store, D1, P1, 0, 1).encoded(), 0);
        assert_eq!(remove(&mut store, P1).number, 0);
    }
}

/// The number of a P2 that calls a method of P1 which allows D1 alone, from a method with
/// these handlers; both files in either version, P2 loaded in this domain.
fn calling(versions: [Version; 2], domain: &[u8], handlers: &[Handler]) -> u8 {
    let callee = method(VISIBLE | STATIC, 1, Some(&[0]));
    let first = of_version(versions[0], package(P1, vec![class(&[], vec![callee])]));
    let mut store = store(500);
    assert_eq!(load(&mut store, D1, &first.bytes()).number, 0);
    let caller = coded(STATIC, 1, Some(&[]), &[0x00, 0x8D, 0, 0, 0x7A]).handled(handlers);
    let mut second = importing(package(P2, vec![class(&[], vec![caller])]), &[P1]);
    second.version = versions[1];
    second.references = vec![(1, 0, 1)];
    load(&mut store, domain, &second.bytes()).number
}

#[test]
fn a_call_in_a_range_or_in_a_handler_is_a_call_of_its_method() {
    let handlers = [(0, 5, 0), (1, 4, 4), (0, 1, 1), (4, 5, 1), (0, 1, 4)];
    for versions in Version::BOTH
        .iter()
        .flat_map(|&a| Version::BOTH.map(|b| [a, b]))
    {
        for (start, end, target) in handlers {
            let handlers = [Handler::new(start, end, target)];
            assert_eq!(calling(versions, D1, &handlers), 0);
            assert_eq!(calling(versions, D2, &handlers), 19);
        }
        assert_eq!(calling(versions, D1, &[]), 0);
        assert_eq!(calling(versions, D2, &[]), 19);
    }
    assert_eq!(calling(Version::BOTH, D1, &[Handler::new(0, 5, 2)]), 24);
    assert_eq!(calling(Version::BOTH, D2, &[Handler::new(0, 5, 2)]), 24);
}

#[test]
fn soundness_asks_24_of_each_package() {
    let store_of = |handler: (u16, u16, u16)| {
        let domain = || D1.to_vec();
        let files = [handled(CODE, &[handler]), chain(P2, 0, 1)];
        let packages = files.map(|model| Entry::Package {
            domain: domain(),
            file: model.bytes(),
        });
        let mut ledger = Ledger::new(200);
        ledger.entries = [&[Entry::domain(D1)][..], &packages].concat();
        ledger.written_out(200)
    };
    assert!(q2(&store_of((0, 7, 0))).is_some());
    for bad in [
        (0, 7, 7),
        (3, 3, 0),
        (5, 3, 0),
        (0, 8, 0),
        (1, 7, 0),
        (0, 2, 0),
        (0, 7, 4),
    ] {
        let mut store = store_of(bad);
        assert!(q2(&store).is_none(), "{bad:?}");
        let before = store.clone();
        assert_eq!(load(&mut store, D1, &chain(P3, 0, 1).bytes()).encoded(), 2);
        assert_eq!(remove(&mut store, P1).encoded(), 2);
        assert_eq!(store, before);
    }
}
