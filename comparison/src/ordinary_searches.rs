//! Ordinary packages whose calls name the receiver's class, where the method is declared one
//! level or two further up, in the same package or another.

use crate::ordinary::{begun, Draft, Own, BODY, CODE, STATIC_BODY, VISIBLE};
use crate::workloads::{first_entries, full_of, last_load, last_query, Workload};
use independent::generate::model::{ClassModel, FileModel};
use independent::generate::random::Random;
use independent::without_int::DomainKind;

/// The sizes of stores, in KB.
const SIZES: [usize; 2] = [8, 64];

pub const LOAD: &str =
    "load an ordinary package that names inheriting classes, into a store of such";
pub const QUERY: &str = "query a full store's last package, naming inheriting classes";

/// Classes of each package: a base, an interface, a class below both or below an imported
/// base, one below that, and an interface below the first.
const BASE: u8 = 0;
const INTERFACE: u8 = 1;
const MIDDLE: u8 = 2;
const LEAF: u8 = 3;
const LOWER: u8 = 4;

/// All of them, in the order of the tables.
pub fn with_searches() -> Vec<Workload> {
    let largest = full_of(inheriting);
    let full = SIZES.map(|kb| (kb, first_entries(&largest, kb)));
    let loads = full.map(|(kb, entries)| last_load(LOAD, kb, entries));
    let queries = full.map(|(kb, entries)| last_query(QUERY, kb, entries, BASE, 1));
    loads.into_iter().chain(queries).collect()
}

/// The package of this number.
fn inheriting(number: usize) -> FileModel {
    let random = &mut Random::new(number as u64);
    let mut draft = begun(random, number, CODE, Own::Index, DomainKind::WithInt);
    // What an imported leaf inherits may lie in a package that only its own one imports.
    for import in 1..=draft.model.imports.len() as u8 {
        draft.open.push((0x8D, (import, LEAF, 2)));
        draft.open.push((0x8B, (import, LEAF, 1)));
    }
    draft.open.push((0x8D, (0, LEAF, 2)));
    draft.open.push((0x8B, (0, LEAF, 1)));
    draft.closed.push((0x8E, (0, LOWER, 4)));
    draft.closed.push((0x8B, (0, LEAF, 4)));
    draft.closed.push((0x8D, (0, LEAF, 6)));
    add_classes(&mut draft);
    draft.model
}

fn add_classes(draft: &mut Draft) {
    let imported = !draft.model.imports.is_empty() && draft.random.chance(50);
    let above = if imported { (1, BASE) } else { (0, BASE) };
    let (closed, shared) = (Some(draft.own.closed()), Some(draft.own.shared()));
    let base = vec![
        draft.method(BODY, 1, None),
        draft.method(STATIC_BODY, 2, None),
        draft.method(STATIC_BODY, 3, None),
    ];
    let interface = vec![
        draft.method(VISIBLE, 4, closed),
        draft.method(VISIBLE, 5, closed),
    ];
    let middle = vec![
        draft.method(BODY, 4, closed),
        draft.method(BODY, 5, shared),
        draft.method(STATIC_BODY, 6, closed),
    ];
    let leaf = vec![draft.method(STATIC_BODY, 7, None)];
    draft.model.classes.extend([
        ClassModel::new(0, &[], base),
        ClassModel::new(1, &[], interface),
        ClassModel::new(0, &[above, (0, INTERFACE)], middle),
        ClassModel::new(0, &[(0, MIDDLE)], leaf),
        ClassModel::new(1, &[(0, INTERFACE)], vec![]),
    ]);
}
