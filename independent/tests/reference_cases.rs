//! The fixed sequences of files with many references: each load's number.

mod common;
use common::*;
use independent::generate::reference_cases::{cases, many};

#[test]
fn each_number() {
    let expected: Vec<u32> = cases().iter().map(|case| case.number).collect();
    for sequence in many() {
        let answered = numbers(&sequence);
        // Fresh, two domains, the package that is named; behind an accepted load its removal.
        let mut at = 4;
        for &number in &expected {
            assert_eq!(answered[at], number);
            at += 1;
            if number == 0 {
                assert_eq!(answered[at], 0);
                at += 1;
            }
        }
        assert_eq!(at, answered.len());
    }
    for number in [0, 18, 19] {
        let count = expected.iter().filter(|&&n| n == number).count();
        assert!(count >= 100, "{number} is answered {count} times");
    }
}
