//! Files with planted faults, one for each question of a load about the file.

use super::call_faults::{plant_18, plant_19, plant_20};
use super::handlers::{cut_off, plant_24, to_second, too_many};
use super::model::{set_size, ClassModel, FileModel, MethodModel};
use super::random::Random;
use super::scene::Scene;
use super::spoiled_codes::{unlanded_code, unsplit_code};
use super::without_int::plant_26;
use crate::package::{Version, HEAD, MARK, MAX_CLASSES, MAX_DOMAINS, MAX_IMPORTS, MAX_REFERENCES};
use crate::questions::asked_place;
use crate::without_int::DomainKind;

/// Bits of a visible implemented method.
pub const BODY: u8 = 0xC0;
pub const STATIC_BODY: u8 = 0xE0;
pub const BARE: u8 = 0x80;
pub const RETURN: &[u8] = &[0x7A];

/// Makes one question say no and, as far as it goes, no other. False when this
/// file or this scene has no place for the fault.
pub fn plant(
    random: &mut Random,
    scene: &Scene,
    domain: &[u8],
    model: &mut FileModel,
    question: u8,
) -> bool {
    let most = usize::from(scene.limits().depth);
    let full = model.classes.len() + most + 4 > MAX_CLASSES
        || model.domains.len() + 3 > MAX_DOMAINS
        || model.imports.len() + 1 > MAX_IMPORTS
        || model.references.len() + 1 > MAX_REFERENCES;
    if full {
        return false;
    }
    match question {
        12 => return plant_12(random, scene, model),
        13 => plant_13(random, scene, model),
        14 => plant_14(random, scene, model),
        15 => plant_15(random, model),
        16 => add_code(model, &unsplit_code(random)),
        17 => add_code(model, &unlanded_code(random)),
        18 => plant_18(random, scene, model),
        19 => plant_19(random, scene, domain, model),
        20 => plant_20(random, scene, domain, model),
        24 => plant_24(random, scene.kind(domain), model),
        26 if scene.kind(domain) == DomainKind::WithoutInt => plant_26(random, model),
        _ => return false,
    }
    true
}

/// A file with these faults; `None` when one finds no place.
pub fn faulty_file(
    random: &mut Random,
    scene: &Scene,
    domain: &[u8],
    model: &FileModel,
    questions: &[u8],
) -> Option<Vec<u8>> {
    let mut model = model.clone();
    // The latest question first: what a later fault adds may only mend one that
    // is asked about after it.
    let mut order = questions.to_vec();
    order.sort_unstable_by_key(|&question| asked_place(question));
    for &question in order.iter().rev().filter(|&&q| q >= 12) {
        if !plant(random, scene, domain, &mut model, question) {
            return None;
        }
    }
    if model.version == Version::Second {
        to_second(random, &mut model);
    }
    let mut file = match questions.contains(&11) {
        true => spoiled_layout(random, model),
        false => model.bytes(),
    };
    if questions.contains(&10) {
        spoil_mark(random, &mut file);
    }
    Some(file)
}

/// Question 10: another mark or version, or a file too short to have them.
fn spoil_mark(random: &mut Random, file: &mut Vec<u8>) {
    // Those that are nearly read come more often.
    const VERSIONS: [[u8; 2]; 13] = [
        [0, 0],
        [0, 0],
        [0, 3],
        [0, 3],
        [0, 3],
        [0, 0xFF],
        [1, 0],
        [1, 1],
        [1, 1],
        [1, 2],
        [1, 2],
        [2, 0],
        [0x80, 2],
    ];
    match random.below(12) {
        0..=1 => file.truncate(random.below(HEAD)),
        2..=9 => {
            let field: [u8; 2] = *random.pick(&VERSIONS);
            file[MARK.len()..HEAD].copy_from_slice(&field);
        }
        _ => {
            let place = random.below(HEAD);
            file[place] ^= 1 << random.below(8);
        }
    }
}

/// Question 11: the size says otherwise, the file ends early or late, or a code has too
/// many handlers or only a part of them.
fn spoiled_layout(random: &mut Random, model: FileModel) -> Vec<u8> {
    let mut file = model.bytes();
    match random.below(9) {
        0 => file[6] ^= 1 << random.below(8),
        1 => file[5] ^= 1 << random.below(8),
        2 => file.push(random.byte()),
        3 => {
            file.push(0);
            set_size(&mut file);
        }
        4 => {
            file.pop();
            set_size(&mut file);
        }
        5 => file.truncate(random.between(5, file.len() - 1)),
        6 => return cut_off(random, model),
        _ => return too_many(random, model),
    }
    file
}

fn plant_12(random: &mut Random, scene: &Scene, model: &mut FileModel) -> bool {
    match random.pick_any(&scene.packages) {
        Some(package) => {
            model.aid = package.model.aid.clone();
            true
        }
        None => false,
    }
}

fn plant_13(random: &mut Random, scene: &Scene, model: &mut FileModel) {
    let mut missing = random.pick(&scene.package_pool).clone();
    if random.chance(20) {
        missing = model.aid.clone();
    }
    if scene.package_named(&missing).is_some() {
        missing = random.bytes(7);
    }
    model.imports.push(missing);
}

fn plant_14(random: &mut Random, scene: &Scene, model: &mut FileModel) {
    let next = model.classes.len() as u8;
    let past_imports = model.imports.len() as u8 + 1;
    let kind = random.below(2) as u8;
    match random.below(8) {
        0 => add(model, kind, &[(0, next)], vec![]),
        1 => add(model, kind, &[(past_imports, 0)], vec![]),
        2 => {
            add(model, kind, &[(0, next + 1)], vec![]);
            add(model, 1, &[], vec![]);
        }
        3 => match random.pick_any(&scene.packages) {
            Some(package) => {
                model.imports.push(package.model.aid.clone());
                let past = package.classes.len() as u8;
                add(model, kind, &[(past_imports, past)], vec![]);
            }
            None => add(model, kind, &[(0xFF, 0)], vec![]),
        },
        4 => {
            add(model, 0, &[], vec![]);
            add(model, 1, &[(0, next)], vec![]);
        }
        5 => {
            add(model, 0, &[], vec![]);
            add(model, 0, &[(0, next), (0, next)], vec![]);
        }
        _ => deepen(random, scene, model, kind, scene.limits().depth + 1),
    }
}

/// A chain of classes to this depth, half of the time below an installed class.
pub fn deepen(random: &mut Random, scene: &Scene, model: &mut FileModel, kind: u8, to: u8) {
    let (mut kind, mut parents, mut depth) = (kind, vec![], 0);
    let package = random.pick_any(&scene.packages);
    let last = package.and_then(|p| Some((p, p.classes.last()?)));
    if let Some((package, class)) = last.filter(|_| random.chance(50)) {
        model.imports.push(package.model.aid.clone());
        parents.push((model.imports.len() as u8, package.classes.len() as u8 - 1));
        kind = u8::from(class.interface);
        depth = class.depth;
    }
    for _ in depth..to {
        let number = model.classes.len() as u8;
        add(model, kind, &parents, vec![]);
        parents = vec![(0, number)];
    }
}

fn plant_15(random: &mut Random, model: &mut FileModel) {
    let one = |bits: u8| vec![MethodModel::new(bits, 7, None, RETURN)];
    let two = |first: u8, second: u8| {
        let name = |bits: u8| MethodModel::new(bits, 7, None, RETURN);
        vec![name(first), name(second)]
    };
    match random.below(6) {
        0 => add(model, 0, &[], two(BODY, BODY)),
        1 => add(model, 0, &[], two(STATIC_BODY, BARE)),
        2 => add(model, 1, &[], two(BARE, BARE)),
        3 => add(model, 0, &[], one(0xA0)),
        4 => add(model, 1, &[], one(BODY)),
        _ => add(model, 1, &[], one(0xA0)),
    }
}

/// Adds a class.
pub fn add(model: &mut FileModel, kind: u8, parents: &[(u8, u8)], methods: Vec<MethodModel>) {
    model.classes.push(ClassModel::new(kind, parents, methods));
}

/// Adds a class with one method that has this code and allows nobody.
pub fn add_code(model: &mut FileModel, code: &[u8]) {
    let method = MethodModel::new(STATIC_BODY, 1, Some(&[]), code);
    add(model, 0, &[], vec![method]);
}
