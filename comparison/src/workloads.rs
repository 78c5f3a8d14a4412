//! What the benchmark times: a store, and one call over it.

use crate::below_ladder::below_ladder;
use crate::ordinary::{domain, home, of_codes, of_size, ordinary, package, Own, CODE};
use crate::ordinary_handlers::with_handlers;
use crate::ordinary_imports::with_imports;
use crate::ordinary_kinds::{of_domains, with_kinds};
use crate::ordinary_limits::with_limits;
use crate::ordinary_searches::with_searches;
use independent::generate::limits::ladder;
use independent::generate::model::FileModel;
use independent::ledger::{Call, Entry, Ledger};
use independent::store;
use independent::without_int::DomainKind;

pub struct Workload {
    pub name: &'static str,
    pub size: String,
    pub store: Vec<u8>,
    pub call: Call,
    /// The number that the call answers.
    pub number: u8,
}

/// The sizes of stores, in KB; the largest has one byte less.
pub const SIZES: [usize; 6] = [1, 4, 8, 16, 32, 64];

/// The sizes where lists say FE.
pub const OWN_SIZES: [usize; 2] = [8, 64];

pub const LOAD: &str = "load an ordinary package into a store full but for it";
pub const QUERY: &str = "query a full store's last package";
pub const REMOVE: &str = "remove a full store's first package";
pub const OWN_LOAD: &str = "load an ordinary package with FE into a store full of such";
pub const OWN_QUERY: &str = "query a full store's last package, with FE";
pub const CREATE: &str = "create a domain that is there";
pub const DELETE: &str = "delete the first domain";
pub const LADDER: &str = "load the ladder into an empty store";
pub const AS_LARGE: &str = "load an ordinary package of its size";
pub const LADDER_QUERY: &str = "query the store with the ladder";
pub const AS_LARGE_QUERY: &str = "query the store with that package";
pub const CODES: &str = "load a package of codes alone";
pub const BELOW: &str = "query small packages below a ladder over seven packages";
pub const EMPTY: &str = "query an empty store";

/// All of them, in the order of the tables.
pub fn all() -> Vec<Workload> {
    let mut found = Vec::new();
    let largest = full_entries(Own::Index);
    let full = SIZES.map(|kb| (kb, first_entries(&largest, kb)));
    found.extend(full.map(|(kb, entries)| last_load(LOAD, kb, entries)));
    found.extend(full.map(|(kb, entries)| last_query(QUERY, kb, entries, 0, 1)));
    found.extend(full.map(|(kb, entries)| {
        let call = Call::Remove(package(0));
        over(REMOVE, kb, entries, call)
    }));
    found.extend(with_own());
    for count in [1_023, 8_191] {
        found.extend(of_domains(
            [CREATE, DELETE],
            count,
            [DomainKind::WithInt; 2],
        ));
    }
    let hostile = ladder(&package(0), 64, true).bytes();
    let as_large = of_size(0, hostile.len()).bytes();
    found.extend(of_file(LADDER, LADDER_QUERY, &hostile));
    found.extend(of_file(AS_LARGE, AS_LARGE_QUERY, &as_large));
    let codes = of_codes(0, 15, 4_000).bytes();
    found.extend(of_file(CODES, CODES, &codes).into_iter().take(1));
    found.push(below_ladder());
    found.push(empty());
    found.extend(with_handlers());
    found.extend(with_limits());
    found.extend(with_kinds());
    found.extend(with_searches());
    found.extend(with_imports());
    found
}

pub(crate) fn buffer_bytes(kb: usize) -> usize {
    (1024 * kb).min(65_535)
}

pub fn written(entries: &[Entry], length: usize) -> Vec<u8> {
    let mut ledger = Ledger::new(length);
    ledger.entries = entries.to_vec();
    ledger.written_out(length)
}

/// The bytes in use once these entries are written.
pub fn used(entries: &[Entry]) -> usize {
    let entry_bytes = |entry: &Entry| match entry {
        Entry::Domain(_, aid) => 3 + aid.len(),
        Entry::Package { domain, file } => 4 + domain.len() + file.len(),
    };
    store::HEAD + entries.iter().map(entry_bytes).sum::<usize>()
}

pub(crate) fn four_domains() -> Vec<Entry> {
    (0..4)
        .map(|number| Entry::domain(&domain(number)))
        .collect()
}

/// Four domains, and ordinary packages for the largest store and one more.
fn full_entries(own: Own) -> Vec<Entry> {
    full_of(|number| ordinary(number, 1, CODE, own))
}

/// The same of packages made from their numbers.
pub(crate) fn full_of(make: impl Fn(usize) -> FileModel) -> Vec<Entry> {
    full_over(four_domains(), make)
}

/// The same over these domains.
pub(crate) fn full_over(domains: Vec<Entry>, make: impl Fn(usize) -> FileModel) -> Vec<Entry> {
    let mut entries = domains;
    for number in 0.. {
        entries.push(Entry::Package {
            domain: home(number),
            file: make(number).bytes(),
        });
        if used(&entries) > buffer_bytes(64) {
            break;
        }
    }
    entries
}

/// As many of the entries as a store of this size holds.
pub(crate) fn first_entries(entries: &[Entry], kb: usize) -> &[Entry] {
    entries_within(entries, buffer_bytes(kb))
}

/// The same of a store of so many bytes.
pub(crate) fn entries_within(entries: &[Entry], bytes: usize) -> &[Entry] {
    let fits = |&count: &usize| used(&entries[..count]) <= bytes;
    let count = (0..entries.len()).take_while(fits).last();
    &entries[..count.unwrap_or(0)]
}

/// A load and a query where lists say the own domain by FE.
fn with_own() -> Vec<Workload> {
    let largest = full_entries(Own::Fe);
    let full = OWN_SIZES.map(|kb| (kb, first_entries(&largest, kb)));
    let loads = full.map(|(kb, entries)| last_load(OWN_LOAD, kb, entries));
    // The class under the interface: its method 5 lists FE and an index.
    let queries = full.map(|(kb, entries)| last_query(OWN_QUERY, kb, entries, 2, 5));
    loads.into_iter().chain(queries).collect()
}

/// Asks about a method of the last entry.
pub(crate) fn last_query(
    name: &'static str,
    kb: usize,
    entries: &[Entry],
    class: u8,
    method: u16,
) -> Workload {
    let last = entries.len() - 5;
    let call = Call::Query {
        domain: domain(0),
        package: package(last),
        class,
        name: method,
    };
    over(name, kb, entries, call)
}

/// The last entry loaded over the others.
pub(crate) fn last_load(name: &'static str, kb: usize, entries: &[Entry]) -> Workload {
    let Some((Entry::Package { domain, file }, earlier)) = entries.split_last() else {
        panic!("a store of {kb} KB has no room for an ordinary package");
    };
    let (domain, file) = (domain.clone(), file.clone());
    over(name, kb, earlier, Call::Load { domain, file })
}

pub(crate) fn over(name: &'static str, kb: usize, entries: &[Entry], call: Call) -> Workload {
    Workload {
        name,
        size: format!("{kb} KB"),
        store: written(entries, buffer_bytes(kb)),
        call,
        number: 0,
    }
}

/// Asks about the first class's first method.
pub(crate) fn query(number: usize) -> Call {
    Call::Query {
        domain: domain(0),
        package: package(number),
        class: 0,
        name: 1,
    }
}

/// A file loaded into a store without packages, and a query of it there.
pub(crate) fn of_file(
    load_name: &'static str,
    query_name: &'static str,
    file: &[u8],
) -> [Workload; 2] {
    let mut entries = four_domains();
    let size = format!("{} bytes", file.len());
    let (domain, file) = (domain(0), file.to_vec());
    let load = Workload {
        name: load_name,
        size: size.clone(),
        store: written(&entries, 65_535),
        call: Call::Load {
            domain: domain.clone(),
            file: file.clone(),
        },
        number: 0,
    };
    entries.push(Entry::Package { domain, file });
    let query = Workload {
        name: query_name,
        size,
        store: written(&entries, 65_535),
        call: query(0),
        number: 0,
    };
    [load, query]
}

/// A store without entries, as small as one may be.
fn empty() -> Workload {
    Workload {
        name: EMPTY,
        size: "64 bytes".into(),
        store: written(&[], 64),
        call: query(0),
        number: 7,
    }
}
