//! Files that call or override an installed method that lists FE and lies in another
//! domain: to the rules, or with a fault for question 19 or 20.

use super::codes::{call, call_kinds};
use super::facts::{ClassFacts, MethodFacts, Policy};
use super::faults::{add, BODY, RETURN, STATIC_BODY};
use super::model::{FileModel, MethodModel};
use super::random::Random;
use super::scene::Scene;
use crate::package::{STATIC, VISIBLE};
use crate::policy::OWN;

/// An installed method that lists FE.
struct Found<'a> {
    package: &'a [u8],
    domain: &'a [u8],
    class: u8,
    facts: &'a ClassFacts,
    method: &'a MethodFacts,
}

/// One of these methods that fits and lies in another domain than the one that loads.
fn found<'a>(
    random: &mut Random,
    scene: &'a Scene,
    loading: &[u8],
    fits: impl Fn(&Found) -> bool,
) -> Option<Found<'a>> {
    let mut all = Vec::new();
    for package in scene.packages.iter().filter(|p| p.domain != loading) {
        let classes = package.model.classes.iter().zip(&package.classes);
        for (number, (class, facts)) in classes.enumerate() {
            for (model, method) in class.methods.iter().zip(&facts.methods) {
                let found = Found {
                    package: &package.model.aid,
                    domain: &package.domain,
                    class: number as u8,
                    facts,
                    method,
                };
                let lists = |indexes: &Vec<u8>| indexes.contains(&OWN);
                if model.allowed.as_ref().is_some_and(lists) && fits(&found) {
                    all.push(found);
                }
            }
        }
    }
    let number = random.below(all.len().max(1));
    all.into_iter().nth(number)
}

/// A call of a method that allows the loading domain or not; the caller of one that does
/// allows the method's own domain too. False without such a method.
pub fn call_elsewhere(
    random: &mut Random,
    scene: &Scene,
    loading: &[u8],
    model: &mut FileModel,
    allowed: bool,
) -> bool {
    let fits = |found: &Found| {
        let method = found.method;
        method.bits & VISIBLE != 0 && method.policy.allows(loading) == allowed
    };
    let Some(found) = found(random, scene, loading, fits) else {
        return false;
    };
    let mut list = random.pick(&[vec![], vec![OWN], vec![OWN; 2]]).clone();
    if allowed {
        list.push(model.domains.len() as u8);
        model.domains.push(found.domain.to_vec());
    }
    model.imports.push(found.package.to_vec());
    let index = model.references.len() as u16;
    let package = model.imports.len() as u8;
    let name = found.method.name;
    model.references.push((package, found.class, name));
    let interface = found.facts.interface;
    let opcode = *random.pick(&call_kinds(interface, interface, found.method.bits));
    let mut code = call(random, opcode, index);
    code.push(0x7A);
    let caller = MethodModel::new(STATIC_BODY, 2, Some(&list), &code);
    add(model, 0, &[], vec![caller]);
    true
}

/// A class below such a method's with a method of its name, which lists FE and, where it
/// is to be allowed, all else that is needed. False without such a method.
pub fn override_elsewhere(
    random: &mut Random,
    scene: &Scene,
    loading: &[u8],
    model: &mut FileModel,
    allowed: bool,
) -> bool {
    let need = |found: &Found| match found.facts.needs.get(&found.method.name) {
        Some(Policy::Only(aids)) => Some(aids.clone()),
        _ => None,
    };
    let fits = |found: &Found| {
        let declared = found.method.bits & STATIC == 0 && found.facts.depth < scene.limits().depth;
        let needed = |aids| !allowed || Policy::Only(aids).allows(loading);
        declared && need(found).is_some_and(needed)
    };
    let Some(found) = found(random, scene, loading, fits) else {
        return false;
    };
    let mut list = vec![OWN];
    if allowed {
        for aid in need(&found).into_iter().flatten().filter(|a| a != loading) {
            list.push(model.domains.len() as u8);
            model.domains.push(aid);
        }
    }
    model.imports.push(found.package.to_vec());
    let parent = (model.imports.len() as u8, found.class);
    let runs = MethodModel::new(BODY, found.method.name, Some(&list), RETURN);
    add(model, 0, &[parent], vec![runs]);
    true
}
