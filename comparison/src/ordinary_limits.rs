//! Stores of version 2: ordinary packages by the standard limits, and files at the
//! greatest limits.

use crate::ordinary::{domain, home, ordinary, package, Own, CODE};
use crate::workloads::{
    buffer_bytes, entries_within, four_domains, full_of, last_load, of_file, used, written,
    Workload,
};
use independent::generate::handlers::long_code;
use independent::generate::model::{ClassModel, FileModel, MethodModel};
use independent::generate::random::Random;
use independent::ledger::{Call, Entry, Ledger};
use independent::limits::Limits;
use independent::package::MAX_CLASSES;
use independent::store::{self, Body, StoreVersion};
use independent::without_int::DomainKind;

/// The sizes of stores, in KB.
const SIZES: [usize; 2] = [8, 64];

pub const LOAD: &str = "load an ordinary package into a store of version 2, full but for it";
pub const LADDER: &str = "load the last of 16 levels of 32 interfaces, 8 parents each";
pub const LADDER_CLASSES: &str = "load 32 classes below 15 such levels";
pub const LONGEST: &str = "load a code of 32,767 bytes";
pub const CODES: &str = "load two codes, of 32,767 and 32,600 bytes";

/// All of them, in the order of the tables.
pub fn with_limits() -> Vec<Workload> {
    let largest = full_of(|number| ordinary(number, 1, CODE, Own::Index));
    let mut found: Vec<Workload> = SIZES
        .iter()
        .map(|&kb| {
            let entries = entries_within(&largest, buffer_bytes(kb) - Limits::BYTES);
            limited(Limits::STANDARD, last_load(LOAD, kb, entries))
        })
        .collect();
    found.push(below_levels(LADDER, 1));
    found.push(below_levels(LADDER_CLASSES, 0));
    found.push(codes(LONGEST, &[32_767]));
    found.push(codes(CODES, &[32_767, 32_600]));
    found
}

/// A package of 32 classes of a kind; each has the most parents, in the package before.
fn level(number: usize, kind: u8) -> FileModel {
    let most = Limits::GREATEST.parents;
    let wide = MAX_CLASSES as u8;
    let parents = |class: u8| match number {
        0 => Vec::new(),
        _ => (0..most).map(|k| (1, (most * class + k) % wide)).collect(),
    };
    let class = |class: u8| ClassModel::new(kind, &parents(class), vec![]);
    FileModel {
        aid: package(number),
        imports: number.checked_sub(1).map(package).into_iter().collect(),
        classes: (0..wide).map(class).collect(),
        ..FileModel::default()
    }
}

/// The level at the depth limit, of classes of this kind, below all others.
fn below_levels(name: &'static str, kind: u8) -> Workload {
    let last = usize::from(Limits::GREATEST.depth) - 1;
    let mut entries = four_domains();
    entries.extend((0..last).map(|number| Entry::Package {
        domain: home(number),
        file: level(number, 1).bytes(),
    }));
    let workload = Workload {
        name,
        size: format!("{last} packages"),
        store: written(&entries, 65_535),
        call: Call::Load {
            domain: domain(0),
            file: level(last, kind).bytes(),
        },
        number: 0,
    };
    limited(Limits::GREATEST, workload)
}

/// Codes of these lengths alone, loaded into a store without packages.
fn codes(name: &'static str, lengths: &[usize]) -> Workload {
    let random = &mut Random::new(lengths.len() as u64);
    let method = |(name, &length): (usize, &usize)| {
        MethodModel::new(
            0xE0,
            name as u16,
            None,
            &long_code(random, DomainKind::WithInt, length),
        )
    };
    let methods = lengths.iter().enumerate().map(method).collect();
    let model = FileModel {
        aid: package(0),
        classes: vec![ClassModel::new(0, &[], methods)],
        ..FileModel::default()
    };
    let [load, _] = of_file(name, name, &model.bytes());
    limited(Limits::GREATEST, load)
}

/// The entries of a store that is laid out.
pub(crate) fn entries_of(store: &[u8]) -> Vec<Entry> {
    let layout = store::layout(store).expect("a store that is laid out");
    let owned = |entry: store::Entry| match entry.body {
        Body::Domain(kind, aid) => Entry::Domain(kind, aid.to_vec()),
        Body::Package { domain, file } => {
            let (domain, file) = (domain.to_vec(), file.to_vec());
            Entry::Package { domain, file }
        }
    };
    layout.entries.into_iter().map(owned).collect()
}

/// The same call over a store of version 2 with these limits and the same entries.
pub(crate) fn limited(limits: Limits, workload: Workload) -> Workload {
    let length = workload.store.len();
    let mut ledger = Ledger::new(length);
    ledger.entries = entries_of(&workload.store);
    ledger.version = StoreVersion::Second(limits);
    assert!(
        used(&ledger.entries) + Limits::BYTES <= length,
        "{}",
        workload.name
    );
    let store = ledger.written_out(length);
    Workload { store, ..workload }
}
