//! Inputs of the printed inventory.

use super::crowded::{crowded, largest, BOTH_VERSIONS, LARGEST};
use super::damage::any_damage;
use super::random::Random;
use super::sequences::sequence;
use super::special::{test_store, BOTH_FRESH};
use super::starts::pools;
use super::stores::planted_store;
use crate::loader::{damage, Independent, Loader, Step};
use crate::questions::OF_A_FILE;
use crate::store::{used, write_empty, HEAD};

/// Lengths at which something changes, and longer ones.
const LENGTHS: [usize; 14] = [
    0,
    1,
    6,
    7,
    10,
    11,
    63,
    64,
    65,
    LARGEST - 1,
    LARGEST,
    LARGEST + 1,
    LARGEST + 2,
    200_000,
];

/// Inputs that are the same in every run: fresh stores and other bytes of these lengths, a
/// store of several packages cut and drawn out to them, the largest stores.
pub fn fixed() -> Vec<Vec<u8>> {
    let mut found = largest();
    let test_stores = BOTH_FRESH.map(|first| test_store(&first));
    for length in LENGTHS {
        found.extend([vec![0; length], vec![0xFF; length], vec![b'\n'; length]]);
        let fresh = BOTH_VERSIONS.map(|version| {
            let mut store = vec![0; length.max(version.opening())];
            write_empty(&mut store, version);
            store
        });
        for mut store in test_stores.iter().cloned().chain(fresh) {
            store.resize(length, 0);
            found.push(store);
        }
    }
    found
}

/// The input for this number; equal numbers give equal inputs.
pub fn input(seed: u64) -> Vec<u8> {
    let random = &mut Random::new(seed ^ 0x1A7E_4702);
    match random.below(100) {
        0..=29 => grown(random),
        30..=46 => planted(random),
        47..=55 => damaged(random),
        56..=63 => too_long(random),
        64..=69 => too_short(random),
        _ => crowded(random),
    }
}

/// What the first calls of a generated sequence leave.
fn grown(random: &mut Random) -> Vec<u8> {
    let sequence = sequence(random.number());
    let steps = random.between(1, sequence.steps.len());
    let mut store = sequence.start;
    for step in &sequence.steps[..steps] {
        match step {
            Step::Call(call) => {
                Independent.call(&mut store, call);
            }
            Step::Damage { place, bits } => damage(&mut store, *place, *bits),
        }
    }
    store
}

/// A store that no list of calls made, half of the time with one fault.
fn planted(random: &mut Random) -> Vec<u8> {
    let pools = pools(random);
    let question = match random.below(20) {
        0..=9 => 0,
        10 => *random.pick(&[1, 2, 3, 4, 5, 30]),
        _ => *random.pick(&OF_A_FILE),
    };
    planted_store(random, &pools, question).bytes
}

/// One byte of another store changed.
fn damaged(random: &mut Random) -> Vec<u8> {
    let mut store = match random.below(3) {
        0 => grown(random),
        1 => planted(random),
        _ => crowded(random),
    };
    if store.len() > HEAD {
        let used = used(&store).min(store.len());
        let (place, bits) = any_damage(random, &store, used);
        damage(&mut store, place, bits);
    }
    store
}

/// More than 65,535 bytes: a store and zeros or other bytes after it.
fn too_long(random: &mut Random) -> Vec<u8> {
    let mut store = match random.below(4) {
        0 => grown(random),
        1 => crowded(random),
        _ => planted(random),
    };
    let length = match random.below(8) {
        0 => LARGEST + 1,
        1..=4 => LARGEST + 1 + store.len(),
        5 => random.between(LARGEST + 2, 70_000),
        _ => random.between(70_000, 200_000),
    };
    let byte = *random.pick(&[0, 0, 0, 0xFF]);
    store.resize(length.max(LARGEST + 1), byte);
    store
}

/// Fewer than 64 bytes: a store that would be sound but for that, one cut off, or any bytes.
fn too_short(random: &mut Random) -> Vec<u8> {
    let length = random.below(64);
    match random.below(3) {
        0 => random.bytes(length),
        1 => {
            let mut store = planted(random);
            store.truncate(length);
            store
        }
        _ => {
            let version = *random.pick(&BOTH_VERSIONS);
            let mut store = vec![0; length.max(version.opening())];
            write_empty(&mut store, version);
            store
        }
    }
}
