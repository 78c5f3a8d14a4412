//! Planted faults for questions 18 to 20.

use super::codes::call;
use super::facts::MethodFacts;
use super::faults::{add, add_code, BARE, BODY, RETURN, STATIC_BODY};
use super::model::{FileModel, MethodModel};
use super::own_meetings::{call_elsewhere, override_elsewhere};
use super::random::Random;
use super::scene::Scene;
use crate::policy::OWN;

pub fn plant_18(random: &mut Random, scene: &Scene, model: &mut FileModel) {
    let own = model.classes.len() as u8;
    let past_imports = model.imports.len() as u8 + 1;
    // Method 1 runs, 2 is static, 3 is not implemented, 5 runs; 4 is an interface's.
    let held = [(BODY, 1), (STATIC_BODY, 2), (BARE, 3), (BODY, 5)];
    let held = held.map(|(bits, name)| MethodModel::new(bits, name, None, RETURN));
    add(model, 0, &[], held.to_vec());
    let bare = MethodModel::new(BARE, 4, None, &[]);
    add(model, 1, &[], vec![bare]);
    let mut cases = vec![
        (0x8B, (0, own, 2)),
        (0x8B, (0, own + 1, 4)),
        (0x8B, (0, own, 9)),
        (0x8C, (0, own, 3)),
        (0x8C, (0, own + 1, 4)),
        (0x8D, (0, own, 1)),
        (0x8D, (0, own, 3)),
        (0x8E, (0, own, 1)),
        (0x8E, (0, own, 2)),
        (0x8E, (0, own + 40, 4)),
        (0x8C, (past_imports, 0, 1)),
    ];
    let limits = scene.limits();
    if limits.depth > 1 && limits.parents > 1 {
        // It inherits all of these, and its static method 5 ends a search.
        let ends = MethodModel::new(STATIC_BODY, 5, None, RETURN);
        add(model, 0, &[(0, own), (0, own + 1)], vec![ends]);
        let below = [
            (0x8B, 2),
            (0x8B, 5),
            (0x8B, 9),
            (0x8C, 3),
            (0x8C, 4),
            (0x8D, 1),
            (0x8D, 4),
            (0x8E, 1),
            (0x8E, 9),
        ];
        cases.extend(below.map(|(opcode, name)| (opcode, (0, own + 2, name))));
    }
    let (opcode, mut reference) = *random.pick(&cases);
    let mut index = model.references.len() as u16;
    if random.chance(10) {
        index += 1 + random.below(3) as u16;
    } else if random.chance(30) {
        if let Some(hidden) = hidden_method(scene) {
            model.imports.push(hidden.package);
            reference = (past_imports, hidden.class, hidden.name);
            // It is hidden where an own class inherits it, too.
            if hidden.depth < limits.depth && random.chance(50) {
                reference = (0, model.classes.len() as u8, hidden.name);
                add(model, hidden.kind, &[(past_imports, hidden.class)], vec![]);
            }
        }
    }
    model.references.push(reference);
    let mut code = call(random, opcode, index);
    code.push(0x7A);
    add_code(model, &code);
}

/// An installed method that is not visible, and its class.
struct Hidden {
    package: Vec<u8>,
    class: u8,
    kind: u8,
    depth: u8,
    name: u16,
}

/// The first of them.
fn hidden_method(scene: &Scene) -> Option<Hidden> {
    for package in &scene.packages {
        for (number, class) in package.classes.iter().enumerate() {
            let hidden = |m: &&MethodFacts| m.bits & BARE == 0;
            if let Some(method) = class.methods.iter().find(hidden) {
                return Some(Hidden {
                    package: package.model.aid.clone(),
                    class: number as u8,
                    kind: u8::from(class.interface),
                    depth: class.depth,
                    name: method.name,
                });
            }
        }
    }
    None
}

pub fn plant_19(random: &mut Random, scene: &Scene, domain: &[u8], model: &mut FileModel) {
    if random.chance(60) && call_elsewhere(random, scene, domain, model, false) {
        return;
    }
    let first = model.domains.len() as u8;
    let other = random.bytes(6);
    model.domains.push(domain.to_vec());
    model.domains.push(other);
    let (caller, callee) = refused_lists(random, first);
    let (opcode, kind, bits) = *random.pick(&[
        (0x8B, 0, BODY),
        (0x8B, 0, BARE),
        (0x8C, 0, STATIC_BODY),
        (0x8D, 0, STATIC_BODY),
        (0x8E, 1, BARE),
    ]);
    let mut class = model.classes.len() as u8;
    let index = model.references.len() as u16;
    let held = MethodModel::new(bits, 1, callee.as_deref(), RETURN);
    add(model, kind, &[], vec![held]);
    if scene.limits().depth > 1 && random.chance(50) {
        // The class named inherits it; below an interface it may be of either kind.
        add(model, kind * random.below(2) as u8, &[(0, class)], vec![]);
        class += 1;
    }
    model.references.push((0, class, 1));
    let mut code = call(random, opcode, index);
    code.push(0x7A);
    let calling = MethodModel::new(STATIC_BODY, 2, caller.as_deref(), &code);
    add(model, 0, &[], vec![calling]);
}

/// Lists of a caller and of a method that may not be called; the loading domain is the
/// first index and FE, another domain the second.
fn refused_lists(random: &mut Random, first: u8) -> (Option<Vec<u8>>, Option<Vec<u8>>) {
    let second = first + 1;
    let own = *random.pick(&[first, OWN]);
    let (both, loading, another) = (&[own, second][..], &[own][..], &[second][..]);
    let mut every_index: Vec<u8> = (0..=second).collect();
    every_index.push(own);
    let nobody: &[u8] = &[];
    let cases = [
        (Some(nobody), Some(nobody)),
        (Some(nobody), Some(another)),
        (None, Some(both)),
        (None, Some(&every_index)),
        (Some(both), Some(loading)),
        (Some(another), Some(loading)),
        (Some(&[first, second]), Some(&[OWN, first, OWN])),
        (Some(loading), Some(another)),
        (Some(another), Some(another)),
    ];
    let (caller, callee) = *random.pick(&cases);
    (caller.map(<[u8]>::to_vec), callee.map(<[u8]>::to_vec))
}

pub fn plant_20(random: &mut Random, scene: &Scene, domain: &[u8], model: &mut FileModel) {
    if random.chance(40) && override_elsewhere(random, scene, domain, model, false) {
        return;
    }
    let first = model.domains.len() as u8;
    model.domains.push(random.bytes(5));
    model.domains.push(random.bytes(16));
    let (one, other) = *random.pick(&[(first, first + 1), (first, OWN), (OWN, first)]);
    let (one, both) = (&[one][..], &[one, other][..]);
    let next = model.classes.len() as u8;
    let method = |bits, allowed| vec![MethodModel::new(bits, 7, allowed, RETURN)];
    match random.below(4) {
        0 => {
            add(model, 0, &[], method(BODY, Some(one)));
            add(model, 1, &[], method(BARE, Some(both)));
            add(model, 0, &[(0, next), (0, next + 1)], vec![]);
        }
        1 => {
            add(model, 0, &[], method(BARE, None));
            add(model, 0, &[(0, next)], method(BODY, Some(both)));
        }
        2 => {
            // A static method of the name is passed over.
            add(model, 0, &[], method(BODY, Some(both)));
            add(model, 0, &[(0, next)], method(STATIC_BODY, None));
            add(model, 0, &[(0, next + 1)], method(0x40, Some(one)));
        }
        _ => {
            add(model, 1, &[], method(BARE, Some(both)));
            add(model, 1, &[(0, next), (0, next)], vec![]);
            add(model, 0, &[(0, next + 1)], method(BODY, Some(one)));
        }
    }
}
