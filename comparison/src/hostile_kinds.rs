//! Hostile stores of domains of both kinds: kinds looked for far away, and question 26 asked of
//! long codes.

use crate::hostile::{filled, packed, workload, LARGEST};
use crate::hostile::{FAR_CODES, FAR_FIRST, FAR_LAST, FAR_TURNS, LONGEST_PLAIN};
use crate::hostile::{PLAIN_CODES, TYPED_CODES};
use crate::ordinary::domain;
use crate::ordinary_limits::limited;
use crate::workloads::Workload;
use independent::generate::limits::plain_code;
use independent::generate::model::{ClassModel, FileModel, MethodModel};
use independent::ledger::Entry;
use independent::limits::{Limits, STANDARD_CODE};
use independent::without_int::DomainKind;

/// All of them, in the order of the table.
pub(crate) fn with_kinds() -> Vec<Workload> {
    let return_alone = [0x7A];
    let mut typed = [0x90, 0x0C].repeat(STANDARD_CODE / 2 - 1);
    typed.push(0x7A);
    vec![
        far(FAR_TURNS, None, half_apart),
        far(FAR_FIRST, None, |package, _| package % 2),
        far(FAR_LAST, None, |package, domains| domains - 1 - package % 2),
        far(FAR_CODES, Some(&return_alone), |package, domains| {
            2 * half_apart(package, domains / 2) + 1
        }),
        codes(PLAIN_CODES, &plain_code(STANDARD_CODE)),
        codes(TYPED_CODES, &typed),
        longest_codes(),
    ]
}

/// The AID of a domain or of a package; they fall as numbers rise, the order that costs most.
fn falling(number: usize) -> Vec<u8> {
    [&[0xA0][..], &(60_000 - number as u32).to_be_bytes()].concat()
}

/// Homes of packages by turns in all domains, those of a package and the next far apart.
fn half_apart(package: usize, domains: usize) -> usize {
    package * (domains / 2 + 1) % domains
}

/// The smallest package, or one with this code.
fn small(number: usize, code: Option<&[u8]>) -> FileModel {
    let class = |code| ClassModel::new(0, &[], vec![MethodModel::new(0xE0, 1, None, code)]);
    FileModel {
        aid: falling(number),
        classes: code.map(class).into_iter().collect(),
        ..FileModel::default()
    }
}

/// Half of the store domains, both kinds by turns; then packages, each in the domain that is
/// told by its number and theirs.
fn far(name: &'static str, code: Option<&[u8]>, home: impl Fn(usize, usize) -> usize) -> Workload {
    let domain = |number: usize| Entry::Domain(DomainKind::BOTH[number % 2], falling(number));
    let entries = filled(Vec::new(), LARGEST / 2, domain);
    let domains = entries.len();
    let entries = filled(entries, LARGEST, |number| Entry::Package {
        domain: falling(home(number, domains)),
        file: small(number, code).bytes(),
    });
    workload(name, &entries, LARGEST)
}

/// A domain without int, where packages of one code lie.
fn start() -> Vec<Entry> {
    vec![Entry::Domain(DomainKind::WithoutInt, domain(0))]
}

/// As many packages of this code as fit.
fn codes(name: &'static str, code: &[u8]) -> Workload {
    let entries = filled(start(), LARGEST, |number| packed(small(number, Some(code))));
    workload(name, &entries, LARGEST)
}

/// The longest code by the greatest limits and one that fits behind it.
fn longest_codes() -> Workload {
    let lengths = [Limits::GREATEST.code.into(), 32_600];
    let codes = lengths.iter().enumerate();
    let mut entries = start();
    entries.extend(codes.map(|(number, &length)| packed(small(number, Some(&plain_code(length))))));
    limited(Limits::GREATEST, workload(LONGEST_PLAIN, &entries, LARGEST))
}
