//! Ordinary packages in version 2: some methods have one handler or two.

use crate::ordinary::{of_codes, ordinary, Own, CODE};
use crate::workloads::{
    buffer_bytes, first_entries, full_of, last_load, last_query, of_file, over, used, Workload,
};
use independent::generate::handlers::good_handlers;
use independent::generate::model::FileModel;
use independent::generate::random::Random;
use independent::handlers::MAX_HANDLERS;
use independent::ledger::{Call, Entry};
use independent::package::{Version, IMPLEMENTED};

/// The sizes of stores, in KB.
const SIZES: [usize; 2] = [8, 64];

pub const LOAD: &str = "load an ordinary package with handlers into a store full of such";
pub const QUERY: &str = "query a full store's last package, with handlers";
pub const OVER_FIRST: &str = "load an ordinary package with handlers into a store of version 1";
pub const CODES: &str = "load a package of codes alone, 16 handlers each";

/// All of them, in the order of the tables.
pub fn with_handlers() -> Vec<Workload> {
    let largest = full_of(ordinary_second);
    let full = SIZES.map(|kb| (kb, first_entries(&largest, kb)));
    let mut found = Vec::new();
    found.extend(full.map(|(kb, entries)| last_load(LOAD, kb, entries)));
    found.extend(full.map(|(kb, entries)| last_query(QUERY, kb, entries, 0, 1)));
    found.extend(SIZES.map(over_first));
    let codes = second(of_codes(0, 15, 4_000), |_| MAX_HANDLERS).bytes();
    found.extend(of_file(CODES, CODES, &codes).into_iter().take(1));
    found
}

/// A file as one of version 2; so many handlers a code, told by a number from 0 to 99.
pub fn second(mut model: FileModel, count: impl Fn(usize) -> usize) -> FileModel {
    let seed = model
        .aid
        .iter()
        .fold(0, |seed, &byte| (seed << 8) | u64::from(byte));
    let random = &mut Random::new(seed);
    model.version = Version::Second;
    let methods = model
        .classes
        .iter_mut()
        .flat_map(|class| &mut class.methods);
    for method in methods.filter(|m| m.bits & IMPLEMENTED != 0) {
        let count = count(random.below(100));
        method.handlers = good_handlers(random, &method.code, count);
    }
    model
}

/// An ordinary package: of its methods six in ten have no handler, three have one, one
/// has two.
fn ordinary_second(number: usize) -> FileModel {
    let model = ordinary(number, 1, CODE, Own::Index);
    second(model, |chance| match chance {
        0..=59 => 0,
        60..=89 => 1,
        _ => 2,
    })
}

/// The last package that fits, as one of version 2, over packages of version 1.
fn over_first(kb: usize) -> Workload {
    let packages = full_of(|number| ordinary(number, 1, CODE, Own::Index));
    let entries = first_entries(&packages, kb);
    // Two packages make room for one that has handlers.
    let (earlier, last) = entries.split_at(entries.len() - 2);
    let Entry::Package { domain, .. } = &last[0] else {
        panic!("a store of {kb} KB has no room for an ordinary package");
    };
    let number = earlier.len() - 4;
    let (domain, file) = (domain.clone(), ordinary_second(number).bytes());
    assert!(used(earlier) + 4 + domain.len() + file.len() <= buffer_bytes(kb));
    over(OVER_FIRST, kb, earlier, Call::Load { domain, file })
}
