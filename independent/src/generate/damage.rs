//! Damage to one byte of a store: of its opening, of an entry's kind, of a policy, of a
//! handler, of what searches for declarations go by, or any.

use super::chosen_limits::number_out;
use super::model::FileModel;
use super::own_lists::policy_damage;
use super::random::Random;
use crate::handlers::{HANDLER_BYTES, MAX_HANDLERS};
use crate::limits::{Limit, Limits};
use crate::package::{STATIC, VISIBLE};
use crate::store::{self, Body, StoreVersion, HEAD};

/// A byte of a file that reads as laid out, and what to put there.
pub fn file_damage(random: &mut Random, file: &[u8]) -> Option<(usize, u8)> {
    match random.below(20) {
        0..=8 => policy_damage(random, file),
        9..=16 => handler_damage(random, file),
        _ => link_damage(random, file),
    }
}

/// A byte of a reference, of a parent or of a method's form, and what to put there.
fn link_damage(random: &mut Random, file: &[u8]) -> Option<(usize, u8)> {
    let model = FileModel::read(file)?;
    let place = *random.pick_any(&model.link_places())?;
    let old = file[place];
    let bit = *random.pick(&[VISIBLE, STATIC]);
    let values = [old ^ bit, old.wrapping_add(1), old.wrapping_sub(1), 0];
    Some((place, *random.pick(&values)))
}

/// A handler count or the low byte of a handler's offset, and what to put there.
fn handler_damage(random: &mut Random, file: &[u8]) -> Option<(usize, u8)> {
    let model = FileModel::read(file)?;
    let place = *random.pick_any(&model.handler_places())?;
    let count = file[place];
    if count == 0 || random.chance(20) {
        let counts = [
            count + 1,
            count.wrapping_sub(1),
            MAX_HANDLERS as u8 + 1,
            0xFF,
        ];
        return Some((place, *random.pick(&counts)));
    }
    let handler = place + 1 + HANDLER_BYTES * random.below(count.into());
    let [start, end, target] = [1, 3, 5].map(|offset| handler + offset);
    let low = *random.pick(&[start, end, target]);
    let old = file[low];
    let values = [
        old.wrapping_add(1),
        old.wrapping_sub(1),
        file[start],
        file[end],
        file[end].wrapping_add(1),
        random.byte(),
    ];
    Some((low, *random.pick(&values)))
}

/// A byte of a store and what to put there, if the store has a place for it.
type Damage = fn(&mut Random, &[u8]) -> Option<(usize, u8)>;

/// Damages, and how many times in a hundred each is tried in turn.
const DAMAGES: [(Damage, usize); 3] = [(opening_damage, 40), (kind_damage, 30), (store_damage, 50)];

/// A place and the bits to flip there; so many bytes of the store are used.
pub fn any_damage(random: &mut Random, store: &[u8], used: usize) -> (usize, u8) {
    for (damage, percent) in DAMAGES {
        if random.chance(percent) {
            if let Some((place, byte)) = damage(random, store) {
                return (place, byte ^ store[place]);
            }
        }
    }
    let limit = match random.chance(90) && used > 0 {
        true => used,
        false => store.len(),
    };
    (random.below(limit), 1 << random.below(8))
}

/// The kind of an entry of a store that is laid out well, mostly of a domain, and what to
/// put there.
fn kind_damage(random: &mut Random, bytes: &[u8]) -> Option<(usize, u8)> {
    let mut entries = store::layout(bytes)?.entries;
    if random.chance(85) {
        entries.retain(|entry| matches!(entry.body, Body::Domain(..)));
    }
    let entry = random.pick_any(&entries)?;
    let kind = *random.pick(&[0, 1, 2, 3, 3, 4, 4]);
    Some((entry.bytes.start, kind))
}

/// A byte of the opening of a store of version 2, and what to put there.
fn opening_damage(random: &mut Random, bytes: &[u8]) -> Option<(usize, u8)> {
    let StoreVersion::Second(limits) = StoreVersion::of(bytes)? else {
        return None;
    };
    let fewer = |number: u8| number.wrapping_sub(1);
    Some(match random.below(16) {
        0..=1 => (HEAD, number_out(random, Limit::Depth) as u8),
        2..=3 => (HEAD + 1, number_out(random, Limit::Parents) as u8),
        // The standard limit becomes 0 or 32,768 by its high byte.
        4..=6 => (HEAD + 2, *random.pick(&[0, 0x80, 0x80, 0xFF])),
        7..=8 => (HEAD, fewer(limits.depth)),
        9..=10 => (HEAD + 1, fewer(limits.parents)),
        11 => (HEAD + random.below(Limits::BYTES), random.byte()),
        // Used, and the version.
        12..=13 => (6, random.between(HEAD - 1, HEAD + Limits::BYTES) as u8),
        14 => (4, *random.pick(&[0, 1, 3, 3, 3])),
        _ => (3, *random.pick(&[1, 2, 0x80])),
    })
}

/// A byte of a package of a store that is laid out well, and what to put there.
fn store_damage(random: &mut Random, bytes: &[u8]) -> Option<(usize, u8)> {
    let layout = store::layout(bytes)?;
    let packages = layout.entries.iter().filter_map(|entry| match entry.body {
        Body::Domain(..) => None,
        Body::Package { file, .. } => Some((entry.bytes.end - file.len(), file)),
    });
    let packages: Vec<(usize, &[u8])> = packages.collect();
    let &(start, file) = random.pick_any(&packages)?;
    let (place, byte) = file_damage(random, file)?;
    Some((start + place, byte))
}
