//! Request 9, hand-made: the instructions that are barred, and question 26.

mod common;
use common::*;
use independent::generate::handler_cases::{of_version, with_code_faults};
use independent::generate::int_cases::{instruction, opcodes, three_faults, typed, with_code};
use independent::generate::limits::chain;
use independent::generate::model::FileModel;
use independent::handlers::Handler;
use independent::operations::load;
use independent::package::Version;
use independent::without_int::{BARRED, TYPED};

/// Document 02's list; the even opcodes from 42 to 58 come to it.
const LIST: &str = "09-0F, 12-14, 17, 20-23, 27, 2A, 33-36, 3A, 5A, 5C-5F, 74, 76, 79, 7E, 82, \
    86, 8A, 97, AC, B0, B4, B8";

const RETURN: &[u8] = &[0x7A];

fn barred(opcode: u8) -> bool {
    let opcode = usize::from(opcode);
    let even = (0x42..=0x58).step_by(2);
    listed(LIST).chain(even).any(|listed| listed == opcode)
}

/// The numbers of a load in D3, which is without int, and in D1.
fn both(model: &FileModel) -> [u8; 2] {
    let number = |domain: &[u8]| load(&mut store_of_both(2048), domain, &model.bytes()).number;
    [number(D3), number(D1)]
}

/// The same for a file with this code, which is alike in both versions.
fn of_code(code: &[u8]) -> [u8; 2] {
    let [first, second] = Version::BOTH.map(|version| both(&with_code(version, code)));
    assert_eq!(first, second, "{code:02X?}");
    first
}

#[test]
fn the_table_is_the_list() {
    for opcode in 0..=255 {
        assert_eq!(BARRED[usize::from(opcode)], barred(opcode), "{opcode:02X}");
    }
    assert_eq!(BARRED.iter().filter(|&&b| b).count(), 51);
}

#[test]
fn every_opcode_where_it_runs_and_where_not() {
    for opcode in opcodes() {
        let bytes = instruction(opcode);
        let expected = [if barred(opcode) { 26 } else { 0 }, 0];
        for code in [
            [&bytes[..], RETURN].concat(),
            [RETURN, &bytes, RETURN].concat(),
            [&[0x70, 2], &bytes[..], RETURN].concat(),
            [&[0x11, 0, 0], &bytes[..], &[0x10, 0], RETURN].concat(),
        ] {
            assert_eq!(of_code(&code), expected, "{code:02X?}");
        }
    }
}

#[test]
fn the_last_instruction_counts() {
    for last in [0x74, 0x76, 0x79] {
        assert_eq!(of_code(&instruction(last)), [26, 0]);
    }
    for last in [0x73, 0x75, 0x77, 0x78, 0x7A, 0x70, 0x72, 0x93, 0xA8] {
        assert_eq!(of_code(&instruction(last)), [0, 0]);
    }
}

#[test]
fn the_type_is_the_byte_after_90_94_and_95() {
    let mut refused = 0;
    for bytes in typed() {
        let right = [if bytes[1] == 0x0D { 26 } else { 0 }, 0];
        let code = [&bytes[..], RETURN].concat();
        assert_eq!(of_code(&code), right, "{bytes:02X?}");
        refused += u32::from(right[0] == 26);
    }
    assert_eq!(refused, 6);
    // The other opcodes of two to four bytes near them take 0D.
    for opcode in [0x10, 0x11, 0x8F, 0x91, 0x96, 0x72, 0xAD] {
        let mut bytes = instruction(opcode);
        bytes[1..].fill(0x0D);
        let code = [&bytes[..], RETURN].concat();
        assert_eq!(of_code(&code), [0, 0], "{bytes:02X?}");
    }
    // 94 0D is an operand of 11 here, and 0D one of 10.
    assert_eq!(of_code(&[0x11, 0x94, 0x0D, 0x10, 0x0D, 0x7A]), [0, 0]);
    assert_eq!(of_code(&[0x10, 0x94, 0x0D, 0x10, 0x0D, 0x7A]), [26, 0]);
}

#[test]
fn operand_bytes_do_not_count() {
    for byte in 0..=255 {
        assert_eq!(of_code(&[0x11, byte, byte, 0x10, byte, 0x7A]), [0, 0]);
        let mut switch = vec![0x75, 0, 9, 0, 1, byte, byte, 0, 9];
        switch.push(0x7A);
        assert_eq!(of_code(&switch), [0, 0]);
        // The unread operands of 8E.
        assert_eq!(of_code(&[0x8E, byte, 0, 2, byte, 0x7A]), [0, 0]);
    }
    assert!(TYPED.iter().all(|&opcode| !barred(opcode)));
}

#[test]
fn each_question_is_asked_of_the_whole_file_before_the_next() {
    let first_of = |order: &[u8], faults: &[u8]| {
        let found = order.iter().find(|number| faults.contains(number));
        *found.unwrap_or(&0)
    };
    for faults in three_faults() {
        let without = first_of(&[16, 17, 24, 26, 18, 19], &faults);
        let with = first_of(&[16, 17, 24, 18, 19], &faults);
        assert_eq!(
            both(&with_code_faults(&faults)),
            [without, with],
            "{faults:?}"
        );
    }
}

/// A package in version 2 with a barred instruction.
fn bad() -> FileModel {
    of_version(Version::Second, common::with_code(&[0x0A, 0x7A]))
}

#[test]
fn the_questions_before_16_come_before_26() {
    assert_eq!(both(&bad()), [26, 0]);
    let of_file = |file: &[u8]| load(&mut store_of_both(500), D3, file).number;
    let mut file = bad().bytes();
    file[4] = 3;
    assert_eq!(of_file(&file), 10);
    file[4] = 1;
    assert_eq!(of_file(&file), 11);
    let mut store = store_of_both(500);
    assert_eq!(load(&mut store, D1, &chain(P1, 0, 1).bytes()).number, 0);
    assert_eq!(load(&mut store, D3, &bad().bytes()).number, 12);
    assert_eq!(both(&importing(bad(), &[P2])), [13, 13]);
    let mut model = bad();
    model.classes[0].parents = vec![(0, 0)];
    assert_eq!(both(&model), [14, 14]);
    let mut model = bad();
    model.classes[0].kind = 1;
    assert_eq!(both(&model), [15, 15]);
}

#[test]
fn q26_comes_before_20_and_21() {
    let base = class(&[], vec![method(BODY, 7, None)]);
    let narrower = |code: &[u8]| class(&[(0, 0)], vec![coded(BODY, 7, Some(&[0]), code)]);
    let of = |code: &[u8]| both(&package(P1, vec![base.clone(), narrower(code)]));
    assert_eq!(of(RETURN), [20, 20]);
    assert_eq!(of(&[0x0A, 0x7A]), [26, 20]);
    let full = |model: FileModel| load(&mut store_of_both(64), D3, &model.bytes()).encoded();
    assert_eq!(full(common::with_code(RETURN)), 21);
    assert_eq!(full(common::with_code(&[0x0A, 0x7A])), 26);
}

#[test]
fn a_handlers_code_counts_too() {
    // 0A stands in the range, at the target, or nowhere near.
    let code = [0x00, 0x0A, 0x7A, 0x7A];
    for (start, end, target) in [(0, 2, 3), (0, 1, 1), (2, 3, 3)] {
        let mut model = common::with_code(&code);
        model.version = Version::Second;
        model.classes[0].methods[0].handlers = vec![Handler::new(start, end, target)];
        assert_eq!(both(&model), [26, 0]);
    }
}
