//! Stores that no list of calls made: laid out well, sound or with one planted fault.

use super::chosen_limits::{good_limits, number_out};
use super::faults::faulty_file;
use super::random::Random;
use super::scene::Scene;
use super::valid::valid_file;
use super::without_int::{file_has_barred, some_kind};
use crate::ledger::{Entry, Ledger};
use crate::limits::{Limit, Limits};
use crate::store::{self, StoreVersion};
use crate::without_int::DomainKind;

/// A store, what it holds, and whether a fault was planted.
pub struct PlantedStore {
    pub bytes: Vec<u8>,
    pub scene: Scene,
    pub faulty: bool,
}

/// A store that holds domains and packages; question 0 plants no fault, 3 to 5 and those
/// about a file a fault for that question, 1 and 2 entries in a wrong order, 30 one in the
/// opening of version 2.
pub fn planted_store(random: &mut Random, pools: &Scene, question: u8) -> PlantedStore {
    let mut scene = pools.clone();
    if question == 30 || random.chance(50) {
        scene.version = StoreVersion::Second(good_limits(random));
    }
    let mut entries = three_domains(random, &mut scene, question);
    let packages = match question == 30 && random.chance(60) {
        true => 0,
        false => random.between(1, 3),
    };
    for aid in &pools.package_pool[..packages] {
        let domain = random.pick(&scene.domains).clone();
        let file = valid_file(random, &scene, &domain, aid).bytes();
        scene.install(&domain, &file);
        entries.push(Entry::Package { domain, file });
    }
    let faulty = question != 0 && plant_entry(random, &scene, &mut entries, question);
    let mut ledger = Ledger::new(0);
    ledger.version = scene.version;
    ledger.entries = entries;
    let used = store::used(&ledger.written_out(store::HEAD));
    let more = *random.pick(&[0, 1, 200, 1000]);
    let mut bytes = ledger.written_out((used + more).max(64));
    scene.free = bytes.len() - used;
    if question == 30 {
        spoil_opening(random, &mut bytes, &scene);
    }
    PlantedStore {
        bytes,
        scene,
        faulty,
    }
}

/// Three domains of either kind; a fault for 26 needs one without int.
fn three_domains(random: &mut Random, scene: &mut Scene, question: u8) -> Vec<Entry> {
    let mut entries = Vec::new();
    for place in 0..3 {
        let domain = scene.domain_pool[place].clone();
        let needed = question == 26 && place == 0;
        let kind = some_kind(random, if needed { 100 } else { 40 });
        scene.create(kind, &domain);
        entries.push(Entry::Domain(kind, domain));
    }
    entries
}

/// How far the packages go towards a limit.
fn needed(scene: &Scene, limit: Limit) -> u16 {
    let each = scene.packages.iter();
    let numbers: Vec<usize> = match limit {
        Limit::Depth => each
            .flat_map(|p| &p.classes)
            .map(|c| c.depth.into())
            .collect(),
        Limit::Parents => each
            .flat_map(|p| &p.model.classes)
            .map(|c| c.parents.len())
            .collect(),
        Limit::Code => each
            .flat_map(|p| &p.model.classes)
            .flat_map(|c| &c.methods)
            .map(|m| m.code.len())
            .collect(),
    };
    numbers.into_iter().max().unwrap_or(0) as u16
}

/// A limit out of its range or below what a package needs, another version, or no room in
/// used for the limits.
fn spoil_opening(random: &mut Random, bytes: &mut [u8], scene: &Scene) {
    match random.below(8) {
        0..=1 => {
            let used = random.between(store::HEAD, store::HEAD + Limits::BYTES - 1);
            bytes[5..store::HEAD].copy_from_slice(&(used as u16).to_be_bytes());
            bytes[store::HEAD + Limits::BYTES..].fill(0);
        }
        2 => {
            let field: [u8; 2] = *random.pick(&[[0, 0], [0, 3], [0, 3], [1, 2], [2, 0], [2, 2]]);
            bytes[3..5].copy_from_slice(&field);
        }
        _ => {
            let limit = *random.pick(&[Limit::Depth, Limit::Parents, Limit::Code, Limit::Code]);
            let needed = needed(scene, limit);
            let number = match needed > 1 && random.chance(30) {
                true => needed - 1,
                false => number_out(random, limit),
            };
            let bad = scene.limits().with(limit, number).bytes();
            bytes[store::HEAD..][..Limits::BYTES].copy_from_slice(&bad);
        }
    }
}

/// Plants a fault in the list; false when it finds no place.
fn plant_entry(random: &mut Random, scene: &Scene, list: &mut Vec<Entry>, question: u8) -> bool {
    if question == 26 && random.chance(50) && hold_to_26(list) {
        return true;
    }
    let domain = home(random, scene, question);
    let model = valid_file(random, scene, &domain, &[0xFA; 7]);
    let (valid, last) = (model.bytes(), list.len() - 1);
    match question {
        1 => list.rotate_right(1),
        2 => {
            let other = valid_importer(random, scene, &domain);
            list.insert(3, other);
        }
        30 => {}
        3 => {
            let length = *random.pick(&[0, 4, 17, 200]);
            let domain = random.bytes(length);
            if random.chance(50) {
                let domain = Entry::Domain(some_kind(random, 50), domain);
                list.insert(random.below(last), domain);
            } else {
                let file = valid;
                list.push(Entry::Package { domain, file });
            }
        }
        4 => list.push(Entry::Domain(some_kind(random, 50), domain)),
        5 => {
            let domain = random.bytes(9);
            let file = valid;
            list.push(Entry::Package { domain, file });
        }
        _ => match faulty_file(random, scene, &domain, &model, &[question]) {
            Some(file) => list.push(Entry::Package { domain, file }),
            None => return false,
        },
    }
    true
}

/// The domain of a package with a fault; 26 is asked of one without int.
fn home(random: &mut Random, scene: &Scene, question: u8) -> Vec<u8> {
    match scene.without_int.iter().next() {
        Some(without) if question == 26 => without.clone(),
        _ => random.pick(&scene.domains).clone(),
    }
}

/// Makes a domain that holds a package with a barred instruction one without int.
fn hold_to_26(list: &mut [Entry]) -> bool {
    let barred = |entry: &Entry| match entry {
        Entry::Package { domain, file } if file_has_barred(file) => Some(domain.clone()),
        _ => None,
    };
    let Some(home) = list.iter().find_map(barred) else {
        return false;
    };
    for entry in list {
        if matches!(entry, Entry::Domain(_, aid) if *aid == home) {
            *entry = Entry::Domain(DomainKind::WithoutInt, home.clone());
        }
    }
    true
}

/// A package that imports the first installed one.
fn valid_importer(random: &mut Random, scene: &Scene, domain: &[u8]) -> Entry {
    let alone = Scene {
        packages: Vec::new(),
        ..scene.clone()
    };
    let mut model = valid_file(random, &alone, domain, &[0xFA; 7]);
    model.imports.push(scene.packages[0].model.aid.clone());
    Entry::Package {
        domain: domain.to_vec(),
        file: model.bytes(),
    }
}
