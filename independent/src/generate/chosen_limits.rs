//! Limits for stores of version 2, and files at these limits and past them.

use super::faults::{add_code, deepen};
use super::handlers::{longest_file, to_second};
use super::limits::plain_code;
use super::model::{ClassModel, FileModel, MethodModel};
use super::random::Random;
use super::scene::Scene;
use crate::limits::{Limit, Limits, STANDARD_CODE};
use crate::package::{MAX_CLASSES, MAX_IMPORTS};
use crate::without_int::DomainKind;

/// Limits in their ranges: the standard ones, the greatest, the least and others.
pub fn good_limits(random: &mut Random) -> Limits {
    match random.below(100) {
        0..=24 => Limits::STANDARD,
        25..=54 => Limits::GREATEST,
        55..=59 => Limits::LEAST,
        _ => Limits::new(
            *random.pick(&[1, 2, 3, 5, 7, 8, 9, 12, 15, 16, 16]),
            *random.pick(&[1, 2, 3, 4, 5, 7, 8, 8]),
            *random.pick(&[
                1, 2, 20, 60, 255, 256, 1_000, 4_095, 4_096, 4_097, 5_000, 32_766, 32_767,
            ]),
        ),
    }
}

/// Limits of which one, now and then more, is out of its range.
pub fn bad_limits(random: &mut Random) -> Limits {
    let mut limits = good_limits(random);
    for _ in 0..*random.pick(&[1, 1, 1, 1, 2, 3]) {
        let limit = *random.pick(&Limit::ALL);
        limits = limits.with(limit, number_out(random, limit));
    }
    limits
}

/// A number out of a limit's range, mostly beside it.
pub fn number_out(random: &mut Random, limit: Limit) -> u16 {
    let past = Limits::GREATEST.of(limit) + 1;
    let far = match limit {
        Limit::Code => 0xFFFF,
        _ => 0xFF,
    };
    *random.pick(&[0, 0, 0, past, past, past, past + 1, far])
}

/// A file for a domain of this kind at one of the store's limits, one past it or near it.
pub fn chosen_file(random: &mut Random, scene: &Scene, kind: DomainKind, aid: &[u8]) -> FileModel {
    let limits = scene.limits();
    let mut model = FileModel {
        aid: aid.to_vec(),
        ..FileModel::default()
    };
    match random.below(11) {
        0..=3 => model = code_at(random, kind, aid, limits.code.into()),
        4..=5 => add_parents(random, scene, &mut model),
        6..=9 => {
            let most = limits.depth;
            let any = random.between(9.min(most.into()), most.into()) as u8;
            let depth = *random.pick(&[most, most + 1, any, any, any, any]);
            let interface = random.below(2) as u8;
            deepen(random, scene, &mut model, interface, depth);
        }
        _ => model = ladder_of(aid, limits, *random.pick(&[0, 1, 4])),
    }
    if random.chance(50) {
        to_second(random, &mut model);
    }
    model
}

/// A code at the limit or past it, or at the ends of a range where limits are others.
fn code_at(random: &mut Random, kind: DomainKind, aid: &[u8], most: usize) -> FileModel {
    let length = match random.below(10) {
        0 => most,
        1..=2 => most + 1,
        3 => most - 1,
        _ => {
            let greatest = usize::from(Limits::GREATEST.code);
            let ends = [STANDARD_CODE, greatest].map(|end| end + random.below(2));
            *random.pick(&ends)
        }
    };
    if length > 0 && random.chance(20) {
        return longest_file(random, kind, aid, length);
    }
    let mut model = FileModel {
        aid: aid.to_vec(),
        ..FileModel::default()
    };
    add_code(&mut model, &plain_code(length));
    model
}

/// An interface, own or installed, as a parent so many times: the limit or one past it.
fn add_parents(random: &mut Random, scene: &Scene, model: &mut FileModel) {
    let most = usize::from(scene.limits().parents);
    let count = *random.pick(&[most, most, most + 1, most + 1, most - 1, 4, 5]);
    model.classes.push(ClassModel::new(1, &[], vec![]));
    let mut reach = vec![(0, 0)];
    for package in scene.packages.iter().take(MAX_IMPORTS) {
        model.imports.push(package.model.aid.clone());
        let number = model.imports.len() as u8;
        let classes = package.classes.iter().enumerate();
        let fitting = classes.filter(|(_, c)| c.interface && c.depth < scene.limits().depth);
        reach.extend(fitting.map(|(class, _)| (number, class as u8)));
    }
    let parents: Vec<(u8, u8)> = (0..count).map(|_| *random.pick(&reach)).collect();
    let kind = random.below(2) as u8;
    model.classes.push(ClassModel::new(kind, &parents, vec![]));
}

/// Levels of interfaces down to the depth limit, as many as fit in a package; each has
/// the most parents, all in the level above, and so many methods.
pub fn ladder_of(aid: &[u8], limits: Limits, methods: u16) -> FileModel {
    let width = MAX_CLASSES as u8 / limits.depth;
    let declared = |name| MethodModel::new(0x80, name, None, &[]);
    let class = |number: u8| {
        let parents: Vec<(u8, u8)> = match number / width {
            0 => Vec::new(),
            level => {
                let above = width * (level - 1);
                (0..limits.parents)
                    .map(|k| (0, above + k % width))
                    .collect()
            }
        };
        ClassModel::new(1, &parents, (0..methods).map(declared).collect())
    };
    FileModel {
        aid: aid.to_vec(),
        classes: (0..width * limits.depth).map(class).collect(),
        ..FileModel::default()
    }
}
