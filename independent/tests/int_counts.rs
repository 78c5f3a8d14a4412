//! Counts of answers that hang on kinds of domains and on barred instructions.

mod common;
use common::*;
use independent::generate::int_cases::{instructions, orders};
use independent::generate::kind_cases::{domains, kinds, meetings};
use independent::generate::sequences::sequence;
use independent::int_counts::IntCounts;
use independent::ledger::Call;
use independent::loader::{Sequence, Step};

/// All that is counted: shapes, wrong readings and opcodes.
const ALL: usize = 8 + 31 + 0xB9;

/// Notes the calls of a sequence; how often it answers 26.
fn note(counts: &mut IntCounts, sequence: &Sequence) -> u64 {
    let mut barred = 0;
    replay(sequence, |call, answer, store| {
        counts.note(call, answer, store);
        barred += u64::from(answer == 26);
    });
    barred
}

/// What a load of this code in this domain counts, over a store with domains of both kinds.
fn counted(domain: &[u8], code: &[u8]) -> Vec<String> {
    let mut counts = IntCounts::default();
    assert_eq!(counts.shortfalls(0).len(), 0);
    let all = counts.shortfalls(1);
    assert_eq!(all.len(), ALL);
    let (domain, file) = (domain.to_vec(), with_code(code).bytes());
    let steps = vec![Step::Call(Call::Load { domain, file })];
    let start = store_of_both(300);
    note(&mut counts, &Sequence { start, steps });
    let left = counts.shortfalls(1);
    let counted = all.into_iter().filter(|what| !left.contains(what));
    counted
        .map(|what| what.replace(": only 0 times", ""))
        .collect()
}

#[test]
fn one_load_of_each_kind() {
    let accepted = "files of version 1 were accepted without int in stores of version 1";
    let with_int = "files with a barred instruction were accepted with int";
    assert_eq!(counted(D1, &[0x7A]), [""; 0]);
    assert_eq!(counted(D1, &[0x0A, 0x7A]), [with_int, "EveryDomain"]);
    let plain = [accepted, "LoadsFirst", "00", "7A"];
    assert_eq!(counted(D3, &[0x00, 0x7A]), plain);
    let barred = ["NotAsked", "NoThird", "LoadsFirst", "0A"];
    assert_eq!(counted(D3, &[0x0A, 0x7A]), barred);
    let operand = [accepted, "Operands", "LoadsFirst", "10", "7A"];
    assert_eq!(counted(D3, &[0x10, 0x0A, 0x7A]), operand);
    // Two barred instructions tell neither opcode apart.
    let dead = [
        "DeadPassed",
        "LastPassed",
        "NotAsked",
        "NoThird",
        "LoadsFirst",
    ];
    assert_eq!(counted(D3, &[0x7A, 0x79]), [&dead[..], &["79"]].concat());
    assert_eq!(
        counted(D3, &[0x0A, 0x79]),
        ["NotAsked", "NoThird", "LoadsFirst"]
    );
}

#[test]
fn the_fixed_sequences_count_all() {
    let mut counts = IntCounts::default();
    let fixed = [instructions(), orders(), domains(), kinds(), meetings()];
    for sequence in fixed.iter().flatten() {
        note(&mut counts, sequence);
    }
    assert_eq!(counts.shortfalls(1), [""; 0]);
}

#[test]
fn generated_sequences_count_all() {
    let mut counts = IntCounts::default();
    let barred: u64 = (0..2000)
        .map(|seed| note(&mut counts, &sequence(seed)))
        .sum();
    println!("{counts}");
    assert_eq!(counts.shortfalls(4), [""; 0]);
    assert!(barred > 100, "{barred}");
}
