//! Hostile stores of version 2 with the greatest limits.

use crate::hostile::{aid, packed, start, workload, LARGEST};
use crate::hostile::{
    BELOW_DEEP, CHAIN_DEEP, CROSSING_DEEP, LONGEST_HANDLERS, SWITCHES, TURNS_DEEP,
};
use crate::hostile_chains::{deep_chain, deep_turns};
use crate::hostile_handlers::one_byte_code;
use crate::hostile_lists::Lists;
use crate::hostile_tables::{below, crossing, Levels};
use crate::ordinary_limits::limited;
use crate::workloads::Workload;
use independent::generate::model::{ClassModel, FileModel, MethodModel};
use independent::limits::Limits;

/// All of them, in the order of the table.
pub(crate) fn with_limits() -> Vec<Workload> {
    let found = [
        deep_chain(CHAIN_DEEP, 8),
        deep_chain(CHAIN_DEEP, 64),
        deep_turns(TURNS_DEEP, [Lists::twice(), Lists::twice()]),
        below(&levels(BELOW_DEEP, 8)),
        crossing(&levels(CROSSING_DEEP, 1), 8),
        longest_codes(),
        switches(),
    ];
    found
        .into_iter()
        .map(|workload| limited(Limits::GREATEST, workload))
        .collect()
}

/// Levels to one above the depth limit, with the most parents and so many methods.
fn levels(name: &'static str, methods: u16) -> Levels {
    Levels {
        name,
        count: usize::from(Limits::GREATEST.depth) - 1,
        parents: Limits::GREATEST.parents,
        methods,
        room: LARGEST - Limits::BYTES,
    }
}

/// The longest code of one-byte instructions and one that fits behind it, 16 handlers each.
fn longest_codes() -> Workload {
    let lengths = [Limits::GREATEST.code, 32_400];
    let codes = lengths.iter().enumerate();
    let mut entries = start();
    entries.extend(codes.map(|(number, &length)| packed(one_byte_code(number, length))));
    workload(LONGEST_HANDLERS, &entries, LARGEST)
}

/// A switch of as many offsets as fit in the longest code; then a shorter one.
fn switches() -> Workload {
    let package = |number: usize, offsets: i16| {
        let high = offsets - 1;
        let mut code = vec![0x73, 0, 0, 0, 0];
        code.extend(high.to_be_bytes());
        // Each offset leads to the switch itself or behind it.
        let after = 7 + 2 * offsets;
        code.extend((0..offsets).flat_map(|k| (k % 2 * after).to_be_bytes()));
        code.extend([0, 0x7A]);
        let method = MethodModel::new(0xE0, 1, None, &code);
        packed(FileModel {
            aid: aid(1 + number),
            classes: vec![ClassModel::new(0, &[], vec![method])],
            ..FileModel::default()
        })
    };
    let mut entries = start();
    entries.extend([package(0, 16_379), package(1, 16_300)]);
    workload(SWITCHES, &entries, LARGEST)
}
