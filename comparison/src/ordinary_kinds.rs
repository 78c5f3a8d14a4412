//! Ordinary packages in domains of both kinds: those of kind 3 have packages without int.

use crate::ordinary::{domain, ordinary_of};
use crate::workloads::{first_entries, full_over, last_load, used, written, Workload};
use independent::ledger::{Call, Entry};
use independent::without_int::DomainKind;
use DomainKind::{WithInt, WithoutInt};

/// The sizes of stores, in KB.
const SIZES: [usize; 2] = [8, 64];

pub const QUARTER: &str =
    "load an ordinary package without int, a quarter of the store's packages such";
pub const HALF: &str = "load an ordinary package without int, half of the store's packages such";
pub const ALL: &str = "load an ordinary package without int, all of the store's packages such";
pub const CREATE: &str = "create a domain without int that is there with int";
pub const DELETE: &str = "delete the first domain, both kinds by turns";

/// The kinds of the four domains.
const KINDS: [(&str, [DomainKind; 4]); 3] = [
    (QUARTER, [WithInt, WithInt, WithInt, WithoutInt]),
    (HALF, [WithInt, WithoutInt, WithInt, WithoutInt]),
    (ALL, [WithoutInt; 4]),
];

/// All of them, in the order of the tables.
pub fn with_kinds() -> Vec<Workload> {
    let mut found = Vec::new();
    for (name, kinds) in KINDS {
        found.extend(SIZES.map(|kb| load_of(name, kb, kinds)));
    }
    found.extend(of_domains([CREATE, DELETE], 8_191, DomainKind::BOTH));
    found
}

/// A store of domains of these kinds and of packages, each in its home; the last that fits
/// and lies in the last domain is loaded over the others.
fn load_of(name: &'static str, kb: usize, kinds: [DomainKind; 4]) -> Workload {
    let domains = kinds.into_iter().enumerate();
    let domains = domains.map(|(number, kind)| Entry::Domain(kind, domain(number)));
    let make = |number: usize| ordinary_of(kinds[number % 4], number);
    let entries = full_over(domains.collect(), make);
    let within = first_entries(&entries, kb);
    last_load(name, kb, &within[..within.len() / 4 * 4])
}

/// A creation of the last domain as the second kind and a deletion of the first, over a store
/// that is full of domains with the shortest AIDs, of these kinds by turns.
pub(crate) fn of_domains(
    [create, delete]: [&'static str; 2],
    count: u32,
    kinds: [DomainKind; 2],
) -> [Workload; 2] {
    let aid = |number: u32| [&[0xA0][..], &number.to_be_bytes()].concat();
    let entry = |number: u32| Entry::Domain(kinds[number as usize % 2], aid(number));
    let entries: Vec<Entry> = (0..count).map(entry).collect();
    let store = written(&entries, used(&entries));
    let workload = |name, call, number| Workload {
        name,
        size: format!("{count} domains"),
        store: store.clone(),
        call,
        number,
    };
    [
        workload(create, Call::create(kinds[1], &aid(count - 1)), 4),
        workload(delete, Call::Delete(aid(0)), 0),
    ]
}
