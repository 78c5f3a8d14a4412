//! The table of instruction lengths and the extremes of switches and branches.

mod common;
use common::*;
use independent::code::{LENGTHS, NONE, SWITCH};

/// Document 01's lists.
const LISTS: [(u8, &str); 5] = [
    (1, "00-0F, 18-27, 2B-3E, 41-58, 5B-5F, 77-7A, 92-93"),
    (
        2,
        "10, 12, 15-17, 28-2A, 3F-40, 60-70, 72, 83-8A, 90, AD-B0, B5-B8",
    ),
    (3, "11, 13, 59-5A, 71, 7B-82, 8B-8D, 8F, 91, 98-AC, B1-B4"),
    (4, "94-97"),
    (5, "14, 8E"),
];

#[test]
fn lengths_are_those_listed() {
    let mut table = [NONE; 256];
    for (length, list) in LISTS {
        for opcode in listed(list) {
            assert_eq!(table[opcode], NONE);
            table[opcode] = length;
        }
    }
    for entry in &mut table[0x73..=0x76] {
        assert_eq!(*entry, NONE);
        *entry = SWITCH;
    }
    assert_eq!(table, LENGTHS);
    let none = (0..256).filter(|&op| LENGTHS[op] == NONE);
    assert_eq!(none.collect::<Vec<_>>(), (0xB9..256).collect::<Vec<_>>());
}

/// The number for a code.
fn number(code: &[u8]) -> u8 {
    judged(&with_code(code))
}

#[test]
fn what_may_be_last() {
    for opcode in 0..=255u8 {
        let length = LENGTHS[usize::from(opcode)];
        if length == NONE || length == SWITCH {
            continue;
        }
        let mut code = vec![0; usize::from(length)];
        code[0] = opcode;
        let last = matches!(opcode, 0x70 | 0x72 | 0x77..=0x7A | 0x93 | 0xA8);
        assert_eq!(number(&code), if last { 0 } else { 16 }, "{opcode:02X}");
    }
    for switch in [
        &[0x73, 0, 0, 0, 5, 0, 5, 0, 0][..],
        &[0x75, 0, 0, 0, 0],
        &[0x76, 0, 0, 0, 0],
    ] {
        assert_eq!(number(switch), 0);
    }
}

#[test]
fn switch_extremes() {
    // One value at each end of the range.
    assert_eq!(number(&[0x73, 0, 0, 0x80, 0, 0x80, 0, 0, 0]), 0);
    assert_eq!(number(&[0x73, 0, 0, 0x7F, 0xFF, 0x7F, 0xFF, 0, 0]), 0);
    let mut wide = vec![0x74, 0, 0, 0x7F, 0xFF, 0xFF, 0xFF];
    wide.extend([0x7F, 0xFF, 0xFF, 0xFF, 0, 0]);
    assert_eq!(number(&wide), 0);
    // All values: far more offsets than there are bytes.
    assert_eq!(number(&[0x73, 0, 0, 0x80, 0, 0x7F, 0xFF, 0, 0]), 16);
    let mut all = vec![0x74, 0, 0, 0x80, 0, 0, 0, 0x7F, 0xFF, 0xFF, 0xFF];
    assert_eq!(number(&all), 16);
    all.extend([0, 0]);
    assert_eq!(number(&all), 16);
    // Low is -1, high is 0.
    assert_eq!(number(&[0x73, 0, 0, 0xFF, 0xFF, 0, 0, 0, 0, 0, 0]), 0);
    // Every offset counts, the last one too.
    assert_eq!(number(&[0x73, 0, 0, 0xFF, 0xFF, 0, 0, 0, 0, 0, 11]), 17);
    assert_eq!(number(&[0x75, 0, 0, 0, 1, 0, 9, 0, 9, 0x7A]), 0);
    assert_eq!(number(&[0x75, 0, 0, 0, 1, 0, 9, 0, 8, 0x7A]), 17);
    assert_eq!(number(&[0x76, 0, 0, 0, 1, 0, 0, 0, 9, 0, 11, 0x7A]), 0);
    assert_eq!(number(&[0x76, 0, 0, 0, 1, 0, 0, 0, 9, 0, 9, 0x7A]), 17);
}

#[test]
fn branch_extremes() {
    // From the last instruction back to offset 0, and 1 before it.
    let back = |distance: u8, length: usize| {
        let mut code = vec![0; length];
        code.extend([0x70, distance]);
        number(&code)
    };
    assert_eq!(back(0x80, 128), 0);
    assert_eq!(back(0x80, 127), 17);
    assert_eq!(back(0xFF, 0), 17);
    // Every branch opcode, to its own start and into its operand.
    for opcode in (0x60..=0x71).chain(0x98..=0xA8u8) {
        let wide = LENGTHS[usize::from(opcode)] == 3;
        let code = |offset: u8| match wide {
            true => vec![opcode, 0, offset, 0x7A],
            false => vec![opcode, offset, 0x7A],
        };
        let end = if wide { 3 } else { 2 };
        assert_eq!(number(&code(0)), 0);
        assert_eq!(number(&code(1)), 17);
        assert_eq!(number(&code(end)), 0);
        assert_eq!(number(&code(end + 1)), 17);
    }
}
