//! The cases of document 01.

mod common;
use common::*;
use independent::card::run_card;
use independent::generate::limits::chain;
use independent::generate::model::FileModel;

#[test]
fn c1_to_c9() {
    let cases: [(&[u8], u8); 9] = [
        (&[0x7A], 0),
        (&[0x8B, 0x00], 16),
        (&[0x00], 16),
        (&[0x70, 0x00], 0),
        (&[0x70, 0x01], 17),
        (&[0x73, 0, 0, 0, 1, 0, 0], 16),
        (&[0x73, 0, 9, 0, 0, 0, 0, 0, 9, 0x7A], 0),
        (&[0x75, 0, 5, 0, 0, 0x7A], 0),
        (&[0x11, 0x8D, 0x00, 0x7A], 0),
    ];
    for (code, number) in cases {
        assert_eq!(judged(&with_code(code)), number, "{code:02X?}");
    }
}

/// A caller with one policy calls a method with another.
fn call(caller: Option<&[u8]>, callee: Option<&[u8]>) -> FileModel {
    let methods = vec![
        coded(STATIC, 1, caller, &[0x8D, 0, 0, 0x7A]),
        method(STATIC, 2, callee),
    ];
    let mut model = package(P1, vec![class(&[], methods)]);
    model.references = vec![(0, 0, 2)];
    model
}

#[test]
fn c10_to_c12() {
    assert_eq!(judged(&call(Some(&[]), Some(&[0]))), 0);
    assert_eq!(judged(&call(Some(&[]), Some(&[]))), 19);
    assert_eq!(judged(&call(Some(&[]), Some(&[1]))), 19);
    assert_eq!(judged(&call(None, Some(&[0, 1]))), 19);
    assert_eq!(judged(&call(None, None)), 0);
    assert_eq!(judged(&call(Some(&[0, 1]), Some(&[0]))), 19);
}

#[test]
fn c13() {
    let a = class(&[], vec![method(BODY, 7, Some(&[0]))]);
    let i = interface(&[], vec![method(0, 7, Some(&[0, 1]))]);
    let b = class(&[(0, 0), (0, 1)], vec![]);
    assert_eq!(judged(&package(P1, vec![a, i, b])), 20);
}

#[test]
fn code_of_0_and_4097_bytes() {
    let code = |length: usize| {
        let mut code = vec![0; length];
        code.extend_from_slice(&[0x7A][..length.min(1)]);
        code.truncate(length);
        if let Some(last) = code.last_mut() {
            *last = 0x7A;
        }
        with_code(&code)
    };
    let numbers = [0, 1, 4096, 4097].map(|length| judged(&code(length)));
    assert_eq!(numbers, [11, 0, 0, 11]);
}

#[test]
fn depth_8_and_9() {
    for kind in [0, 1] {
        assert_eq!(judged(&chain(P1, kind, 8)), 0);
        assert_eq!(judged(&chain(P1, kind, 9)), 14);
    }
}

#[test]
fn the_sample_of_the_card() {
    let input = "C A0000000D1\n\
        L A0000000D1 42504B0001001205A0000001010000000000\n\
        D A0000000D1\nR A000000101\nD A0000000D1\n";
    let output = "1 0 15\n2 0 42\n3 6 42\n4 0 15\n5 0 7\n";
    assert_eq!(run_card(input.as_bytes()), output.as_bytes());
    let input = input.trim_end();
    assert_eq!(run_card(input.as_bytes()), output.as_bytes());
}

#[test]
fn lines_of_other_form() {
    let bad = [
        "",
        " ",
        "C",
        "C ",
        "c A0000000D1",
        "C a0000000d1",
        "C A0000000D",
        " C A0000000D1",
        "C A0000000D1 ",
        "C  A0000000D1",
        "C\tA0000000D1",
        "C A0000000D1\r",
        "C A0000000D1 00",
        "L A0000000D1",
        "L A0000000D1 ",
        "L A0000000D1 00 00",
        "R",
        "Q A0000000D1",
        "CA0000000D1",
        "C A0000000G1",
        "C A0 000000D1",
    ];
    for line in bad {
        let output = run_card(format!("{line}\nC A0").as_bytes());
        assert_eq!(output, b"1 bad\n2 3 7\n", "{line:?}");
    }
    assert_eq!(run_card(b""), b"");
    assert_eq!(run_card(b"\n"), b"1 bad\n");
}

#[test]
fn line_lengths() {
    let line = |count: usize| format!("C {}", "A".repeat(count - 2));
    assert_eq!(run_card(line(8000).as_bytes()), b"1 3 7\n");
    assert_eq!(run_card(line(8002).as_bytes()), b"1 bad\n");
    let load = |digits: usize| format!("C A0000000D1\nL A0000000D1 {}", "A".repeat(digits));
    assert_eq!(run_card(load(7986).as_bytes()), b"1 0 15\n2 10 15\n");
    assert_eq!(run_card(load(7988).as_bytes()), b"1 0 15\n2 bad\n");
}
