//! Codes of one, two and three bytes, in files of both versions.

mod common;
use common::{answers, numbers};
use independent::code::{LENGTHS, NONE, SWITCH};
use independent::generate::special;
use independent::ledger::Call;
use independent::loader::Step;
use independent::package::Version;

#[test]
fn one_and_two_byte_codes() {
    Version::BOTH.into_iter().for_each(short_codes_of);
}

fn short_codes_of(version: Version) {
    let mut counts = [0; 22];
    for (index, sequence) in special::short_codes(version).enumerate() {
        let loads = answers(&sequence).into_iter().skip(3).step_by(2);
        for (code, answer) in loads.enumerate() {
            let number = (answer & 0xFF) as usize;
            if index == 0 {
                let last = matches!(code, 0x77..=0x7A | 0x93);
                assert_eq!(number, if last { 0 } else { 16 });
            } else {
                counts[number] += 1;
            }
        }
    }
    // 87 one-byte instructions before 5 that may be last, 70 00, and 72 with any byte.
    assert_eq!(counts[0], 87 * 5 + 1 + 256);
    assert_eq!(counts[17], 255);
    assert_eq!(counts[16], 65_536 - 87 * 5 - 1 - 256 - 255);
}

/// Questions 16 and 17 of a code of three bytes, by instructions one after the other; no switch has so few.
fn short_number(code: &[u8]) -> u32 {
    let mut starts = Vec::new();
    let mut at = 0;
    while at < code.len() {
        starts.push(at as i32);
        match LENGTHS[usize::from(code[at])] {
            NONE | SWITCH => return 16,
            length => at += usize::from(length),
        }
    }
    let last = code[*starts.last().unwrap() as usize];
    if at > code.len() || !matches!(last, 0x70 | 0x72 | 0x77..=0x7A | 0x93 | 0xA8) {
        return 16;
    }
    let lands = |&start: &i32| {
        let at = start as usize;
        let offset = match code[at] {
            0x60..=0x70 => i32::from(code[at + 1] as i8),
            0x71 | 0x98..=0xA8 => i32::from(i16::from_be_bytes([code[at + 1], code[at + 2]])),
            _ => return true,
        };
        starts.contains(&(start + offset))
    };
    if starts.iter().all(lands) {
        0
    } else {
        17
    }
}

#[test]
fn codes_of_three_bytes() {
    let mut counts = [0; 18];
    let seeds = (0..8).flat_map(|seed| Version::BOTH.map(|version| (version, seed)));
    for (version, seed) in seeds {
        let sequence = special::three_byte_codes(version, seed);
        let found = numbers(&sequence);
        for (pair, step) in found[3..]
            .chunks(2)
            .zip(sequence.steps[3..].iter().step_by(2))
        {
            let Step::Call(Call::Load { file, .. }) = step else {
                panic!("no load: {step:?}");
            };
            // In version 2 a handler count follows.
            let end = file.len() - usize::from(version == Version::Second);
            let number = short_number(&file[end - 3..end]);
            assert_eq!(pair, [number, if number == 0 { 0 } else { 7 }]);
            counts[number as usize] += 1;
        }
    }
    assert!(
        counts[0] > 0 && counts[16] > 0 && counts[17] > 0,
        "{counts:?}"
    );
}
