//! Any file for a load: accepted, faulty, damaged, at a limit, filling the store.

use super::chosen_limits::{chosen_file, ladder_of};
use super::damage::file_damage;
use super::faults::faulty_file;
use super::handler_limits::handler_limits;
use super::handlers::{longest_file, to_second};
use super::limits::{
    calling_ladder, chain, count_limits, ladder, method_limits, plain_code, under_ladder,
};
use super::model::{set_size, ClassModel, FileModel, MethodModel};
use super::own_lists::own_limits;
use super::planned_searches::planned_file;
use super::random::Random;
use super::scene::Scene;
use super::searches::searching_file;
use super::valid::valid_file;
use crate::package::{self, Version};
use crate::questions::OF_A_FILE;
use crate::store::StoreVersion;
use crate::without_int::DomainKind;

pub fn any_file(random: &mut Random, scene: &Scene, domain: &[u8]) -> Vec<u8> {
    let aid = new_aid(random, scene);
    let chosen = match scene.version {
        StoreVersion::First => 7,
        StoreVersion::Second(_) => 17,
    };
    if random.chance(chosen) {
        return chosen_file(random, scene, scene.kind(domain), &aid).bytes();
    }
    if random.chance(16) {
        let made = match random.chance(50) {
            true => searching_file(random, scene, domain, &aid),
            false => planned_file(random, scene, domain, &aid),
        };
        if let Some(model) = made {
            return match random.chance(90) {
                true => model.bytes(),
                false => changed_file(random, model.bytes()),
            };
        }
    }
    let model = valid_file(random, scene, domain, &aid);
    if scene.kind(domain) == DomainKind::WithoutInt && random.chance(38) {
        if let Some(file) = barred_file(random, scene, domain, &model) {
            return file;
        }
    }
    let questions = two_questions(random);
    let faulty = match random.below(100) {
        0..=43 => None,
        44..=73 => faulty_file(random, scene, domain, &model, &questions[..1]),
        74..=81 => faulty_file(random, scene, domain, &model, &questions),
        82..=83 => Some(damaged_file(random, model.bytes())),
        84..=88 => Some(changed_file(random, model.bytes())),
        89..=92 => Some(limit_file(random, scene, domain, &aid)),
        93..=94 => Some(any_bytes(random)),
        95..=96 => Some(hostile_file(random, scene, &aid)),
        _ => filling_file(random, scene, domain, &aid),
    };
    faulty.unwrap_or_else(|| model.bytes())
}

/// Two questions about a file; now and then 24 and one that is asked just before or after it.
fn two_questions(random: &mut Random) -> [u8; 2] {
    if random.chance(20) {
        return [*random.pick(&[16, 17, 18, 19, 20]), 24];
    }
    [(); 2].map(|()| *random.pick(&OF_A_FILE))
}

/// A file with a barred instruction, now and then with a fault that is asked about before
/// or after it, or one that a domain with int takes.
fn barred_file(
    random: &mut Random,
    scene: &Scene,
    domain: &[u8],
    model: &FileModel,
) -> Option<Vec<u8>> {
    let beside = *random.pick(&[16, 17, 24, 24, 18, 18, 19, 20]);
    match random.below(10) {
        0..=6 => faulty_file(random, scene, domain, model, &[26]),
        7..=8 => faulty_file(random, scene, domain, model, &[26, beside]),
        _ => {
            let mut with_int = scene.clone();
            with_int.without_int.clear();
            Some(valid_file(random, &with_int, domain, &model.aid).bytes())
        }
    }
}

/// An AID that is not installed.
fn new_aid(random: &mut Random, scene: &Scene) -> Vec<u8> {
    let aid = random.pick(&scene.package_pool).clone();
    match scene.package_named(&aid) {
        None => aid,
        Some(_) => {
            let length = random.between(5, 16);
            random.bytes(length)
        }
    }
}

/// One byte flipped, or the end cut off, or bytes added; the size is then made right or not.
pub fn damaged_file(random: &mut Random, mut file: Vec<u8>) -> Vec<u8> {
    match random.below(5) {
        0 => file.truncate(random.below(file.len() + 1)),
        1 => {
            let more = random.between(1, 20);
            file.extend(random.bytes(more));
        }
        _ => {
            let place = random.below(file.len());
            file[place] ^= 1 << random.below(8);
        }
    }
    if random.chance(40) {
        set_size(&mut file);
    }
    file
}

/// A byte of a policy, of a handler, of a reference, a parent or a method's form changed, if
/// there is one.
fn changed_file(random: &mut Random, mut file: Vec<u8>) -> Vec<u8> {
    if let Some((place, byte)) = file_damage(random, &file) {
        file[place] = byte;
    }
    file
}

fn limit_file(random: &mut Random, scene: &Scene, domain: &[u8], aid: &[u8]) -> Vec<u8> {
    let import = random.pick_any(&scene.packages);
    let import = import.map(|p| p.model.aid.as_slice());
    let known = scene.domains.first().map_or(aid, |d| &d[..]);
    let listed = if (5..=16).contains(&domain.len()) {
        domain
    } else {
        known
    };
    let limits = scene.limits();
    let most = usize::from(limits.depth);
    let mut model = match random.below(6) {
        0 => {
            let depth = random.between(most - 1, most + 1);
            chain(aid, random.below(2) as u8, depth as u8)
        }
        1 => random.pick(&method_limits(aid, listed)).model.clone(),
        2 => {
            let domain_count = *random.pick(&[0, 0, 1, 2, 32]);
            let version = *random.pick(&Version::BOTH);
            let files = own_limits(version, aid, listed, domain_count);
            return random.pick(&files).file.clone();
        }
        3 => return random.pick(&handler_limits(aid)).file.clone(),
        4 => {
            let kind = scene.kind(domain);
            return longest_file(random, kind, aid, limits.code.into()).bytes();
        }
        _ => random
            .pick(&count_limits(aid, listed, import))
            .model
            .clone(),
    };
    if random.chance(50) {
        to_second(random, &mut model);
    }
    model.bytes()
}

/// Bytes without structure, often with the right mark.
fn any_bytes(random: &mut Random) -> Vec<u8> {
    let length = *random.pick(&[0, 1, 4, 5, 7, 8, 20, 100, 65_535, 65_536, 66_000]);
    let mut file = random.bytes(length);
    if random.chance(60) {
        let version = random.pick(&Version::BOTH).field();
        let mark = [&package::MARK[..], &version].concat();
        let common = mark.len().min(file.len());
        file[..common].copy_from_slice(&mark[..common]);
        set_size(&mut file);
    }
    file
}

fn hostile_file(random: &mut Random, scene: &Scene, aid: &[u8]) -> Vec<u8> {
    let ladders = scene.packages.iter().filter(|p| p.classes.len() == 32);
    let ladders: Vec<&[u8]> = ladders.map(|p| p.model.aid.as_slice()).collect();
    let methods = *random.pick(&[0, 0, 1, 4]);
    let most = scene.limits().code / 5;
    let mut model = match random.pick_any(&ladders) {
        Some(under) if random.chance(40) => under_ladder(aid, under, random.chance(50)),
        Some(under) if random.chance(40) => {
            let count = most.min(*random.pick(&[1, 4, 30]));
            calling_ladder(aid, under, count, *random.pick(&[0, 1, 99]))
        }
        _ if random.chance(50) => ladder_of(aid, scene.limits(), methods),
        _ => ladder(aid, methods, random.chance(50)),
    };
    if random.chance(50) {
        to_second(random, &mut model);
    }
    model.bytes()
}

/// A file whose entry fills the store to the last byte, or is one byte too long.
fn filling_file(random: &mut Random, scene: &Scene, domain: &[u8], aid: &[u8]) -> Option<Vec<u8>> {
    let entry = 3 + 1 + domain.len();
    let past = usize::from(random.chance(40));
    let size = (scene.free + past).checked_sub(entry)?;
    let version = *random.pick(&Version::BOTH);
    let most = scene.limits().code.into();
    Some(sized_file(version, aid, size, most)?.bytes())
}

/// A file of exactly this many bytes, if there is one with a single class, codes of at
/// most this length and no handler.
pub fn sized_file(version: Version, aid: &[u8], size: usize, most: usize) -> Option<FileModel> {
    let method_head = match version {
        Version::First => 6,
        Version::Second => 7,
    };
    let largest = method_head + most;
    let without_methods = 13 + aid.len() + 3;
    let mut left = size.checked_sub(without_methods)?;
    let mut methods = Vec::new();
    while left > 0 {
        // What follows a method is nothing, or enough for a further one.
        let length = if left > largest && left < largest + method_head + 1 {
            largest - method_head - 1
        } else {
            left.min(largest)
        };
        let code = plain_code(length.checked_sub(method_head).filter(|&l| l > 0)?);
        let name = methods.len() as u16;
        methods.push(MethodModel::new(0x40, name, None, &code));
        left -= length;
    }
    Some(FileModel {
        version,
        aid: aid.to_vec(),
        classes: vec![ClassModel::new(0, &[], methods)],
        ..FileModel::default()
    })
}
