//! Packages with as many imports as there may be, each called: one with as many references as
//! there may be, loaded into a store of ordinary packages, and a store full of such importers.

use crate::ordinary::{home, ordinary, package, Own, BODY, CODE, STATIC_BODY};
use crate::workloads::{buffer_bytes, entries_within, first_entries, four_domains, full_of};
use crate::workloads::{last_query, over, used, Workload};
use independent::generate::model::{ClassModel, FileModel, MethodModel};
use independent::ledger::{Call, Entry};
use independent::package::{MAX_IMPORTS, MAX_REFERENCES};

pub const LOAD: &str = "load a package with 15 imports and 1,024 references, each called";
pub const QUERY: &str = "query a full store's last package, 15 imports each, each called";

/// The sizes of stores, in KB; the file that is loaded has more than 7.
const LOAD_SIZES: [usize; 2] = [16, 64];
const QUERY_SIZES: [usize; 2] = [8, 64];

/// What an ordinary package's first class lets everyone call: an opcode and a name.
const OPEN: [(u8, u16); 3] = [(0x8B, 1), (0x8D, 2), (0x8D, 3)];

/// All of them, in the order of the tables.
pub fn with_imports() -> Vec<Workload> {
    let ordinary = full_of(|number| ordinary(number, 1, CODE, Own::Index));
    let loads = LOAD_SIZES.map(|kb| load(kb, &ordinary));
    let largest = full_of(importer);
    let queries = QUERY_SIZES.map(|kb| last_query(QUERY, kb, first_entries(&largest, kb), 0, 1));
    loads.into_iter().chain(queries).collect()
}

/// The load into a store that ordinary packages fill but for it.
fn load(kb: usize, ordinary: &[Entry]) -> Workload {
    let domains = four_domains().len();
    let length = buffer_bytes(kb);
    // Its length is the same whichever packages it imports.
    let largest = file_over(ordinary.len(), MAX_IMPORTS).bytes().len();
    let room = length - largest - 4 - home(0).len();
    let entries = entries_within(ordinary, room);
    let number = entries.len() - domains;
    let (domain, file) = (home(number), file_over(number, number).bytes());
    assert!(used(entries) + 4 + domain.len() + file.len() <= length);
    over(LOAD, kb, entries, Call::Load { domain, file })
}

/// The package of this number, whose imports are spread over so many ordinary packages.
fn file_over(number: usize, packages: usize) -> FileModel {
    let imports = (0..MAX_IMPORTS).map(|k| package(k * (packages - 1) / (MAX_IMPORTS - 1)));
    calling(number, imports.collect(), MAX_REFERENCES)
}

/// The package of this number: an ordinary one, or behind 15 of these one that imports and
/// calls the 15 before it.
fn importer(number: usize) -> FileModel {
    if number < MAX_IMPORTS {
        return ordinary(number, 1, CODE, Own::Index);
    }
    let imports = (number - MAX_IMPORTS..number).map(package);
    calling(number, imports.collect(), MAX_IMPORTS)
}

/// A package with the methods that everyone may call, and so many references to those of its
/// imports by turns, each called once.
fn calling(number: usize, imports: Vec<Vec<u8>>, references: usize) -> FileModel {
    let count = imports.len();
    let opened = |k: usize| OPEN[k / count % OPEN.len()];
    let call = |k: usize| [&[opened(k).0][..], &(k as u16).to_be_bytes()].concat();
    let code: Vec<u8> = (0..references).flat_map(call).chain([0x7A]).collect();
    let mut methods: Vec<MethodModel> = OPEN.map(open_method).into();
    methods.push(MethodModel::new(STATIC_BODY, 4, Some(&[0]), &code));
    FileModel {
        aid: package(number),
        domains: vec![home(number)],
        imports,
        references: (0..references)
            .map(|k| (1 + (k % count) as u8, 0, opened(k).1))
            .collect(),
        classes: vec![ClassModel::new(0, &[], methods)],
        ..FileModel::default()
    }
}

/// A method that everyone may call by this opcode.
fn open_method((opcode, name): (u8, u16)) -> MethodModel {
    let bits = match opcode {
        0x8D => STATIC_BODY,
        _ => BODY,
    };
    MethodModel::new(bits, name, None, &[0x7A])
}
