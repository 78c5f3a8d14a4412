//! Files that every question of a load accepts, room apart.

use super::codes::{call, call_kinds, valid_code};
use super::facts::{ClassFacts, MethodFacts, Policy};
use super::faults::RETURN;
use super::handlers::to_second;
use super::model::{ClassModel, FileModel, MethodModel};
use super::own_meetings::{call_elsewhere, override_elsewhere};
use super::policies::{random_policy, Lists};
use super::random::Random;
use super::scene::Scene;
use crate::package::{IMPLEMENTED, MAX_DOMAINS, STATIC, VISIBLE};

/// Package and class numbers and facts of a class.
type Reached<'a> = (u8, u8, &'a ClassFacts);

struct Draft<'a> {
    scene: &'a Scene,
    domain: &'a [u8],
    /// Numbers of the imported packages in the scene.
    imports: Vec<usize>,
    model: FileModel,
    lists: Lists<'a>,
    classes: Vec<ClassFacts>,
}

/// The longest code of a method that only calls.
const LONGEST_CALLER: u16 = 6;

/// A file for a load in this domain, of either version.
pub fn valid_file(random: &mut Random, scene: &Scene, domain: &[u8], aid: &[u8]) -> FileModel {
    let mut draft = Draft {
        scene,
        domain,
        imports: Vec::new(),
        model: FileModel {
            aid: aid.to_vec(),
            ..FileModel::default()
        },
        lists: Lists::new(random, scene, domain),
        classes: Vec::new(),
    };
    draft.choose_imports(random);
    let most = usize::from(scene.limits().depth);
    let deep = random.chance(if most > 8 { 12 } else { 5 });
    let count = match deep {
        true => random.between(most.saturating_sub(2), most + 4),
        false => *random.pick(&[0, 1, 1, 2, 2, 3, 3, 4, 5, 8]),
    };
    for _ in 0..count {
        draft.add_class(random, deep);
    }
    draft.add_codes(random);
    let mut model = draft.model;
    model.domains = draft.lists.domains;
    let room = model.domains.len() < MAX_DOMAINS / 2 && scene.limits().code >= LONGEST_CALLER;
    if room && random.chance(30) {
        match random.chance(50) {
            true => call_elsewhere(random, scene, domain, &mut model, true),
            false => override_elsewhere(random, scene, domain, &mut model, true),
        };
    }
    if random.chance(50) {
        to_second(random, &mut model);
    }
    model
}

impl Draft<'_> {
    fn choose_imports(&mut self, random: &mut Random) {
        if self.scene.packages.is_empty() {
            return;
        }
        for _ in 0..*random.pick(&[0, 1, 1, 2, 3]) {
            let number = random.below(self.scene.packages.len());
            self.imports.push(number);
            let aid = self.scene.packages[number].model.aid.clone();
            self.model.imports.push(aid);
        }
    }

    /// The classes within reach.
    fn within_reach(&self) -> Vec<Reached<'_>> {
        let packages = self
            .imports
            .iter()
            .map(|&p| &self.scene.packages[p].classes);
        let mut found = Vec::new();
        for (package, classes) in std::iter::once(&self.classes).chain(packages).enumerate() {
            for (class, facts) in classes.iter().enumerate() {
                found.push((package as u8, class as u8, facts));
            }
        }
        found
    }

    /// Parents for a class or an interface; deep ones are the deepest of three picks.
    fn parents(&self, random: &mut Random, interface: bool, deep: bool) -> Vec<Reached<'_>> {
        let limits = self.scene.limits();
        let mut reach = self.within_reach();
        reach.retain(|class| class.2.depth < limits.depth);
        let picks = if deep { 3 } else { 1 };
        let mut parents: Vec<Reached> = Vec::new();
        for _ in 0..random.below(usize::from(limits.parents) + 1) {
            let taken = interface || parents.iter().any(|p| !p.2.interface);
            let picked = (0..picks).filter_map(|_| random.pick_any(&reach));
            let fitting = picked.filter(|class| class.2.interface || !taken);
            parents.extend(fitting.max_by_key(|class| class.2.depth));
        }
        parents
    }

    fn add_class(&mut self, random: &mut Random, deep: bool) {
        let interface = random.chance(35);
        let parents = self.parents(random, interface, deep);
        let facts: Vec<&ClassFacts> = parents.iter().map(|p| p.2).collect();
        let mut facts = ClassFacts::under(&self.model.aid, interface, &facts);
        let numbers: Vec<(u8, u8)> = parents.iter().map(|p| (p.0, p.1)).collect();
        let mut class = ClassModel::new(u8::from(interface), &numbers, Vec::new());
        for (name, forced) in chosen_names(random, &facts) {
            let method = self.method(random, &facts, name, forced);
            class.methods.push(method.0);
            facts.declare(method.1);
        }
        self.classes.push(facts);
        self.model.classes.push(class);
    }

    /// A method of this name; a forced one is non-static.
    fn method(
        &mut self,
        random: &mut Random,
        class: &ClassFacts,
        name: u16,
        forced: bool,
    ) -> (MethodModel, MethodFacts) {
        let mut bits = if random.chance(75) { VISIBLE } else { 0 };
        if !class.interface {
            if random.chance(85) {
                bits |= IMPLEMENTED;
            }
            if !forced && bits & IMPLEMENTED != 0 && random.chance(25) {
                bits |= STATIC;
            }
        }
        let mut policy = random_policy(random, self.scene, self.domain);
        if bits & (IMPLEMENTED | STATIC) == IMPLEMENTED {
            if let Some(need) = class.needs.get(&name) {
                policy.join(need);
            }
        }
        let allowed = self.lists.allowed(random, &mut policy);
        let code = Vec::new();
        let model = MethodModel {
            bits,
            name,
            allowed,
            code,
            handlers: Vec::new(),
        };
        (model, MethodFacts { bits, name, policy })
    }

    fn add_codes(&mut self, random: &mut Random) {
        if random.chance(30) {
            let name = random.below(9) as u16;
            self.model
                .references
                .push((random.byte(), random.byte(), name));
        }
        for class in 0..self.classes.len() {
            for number in 0..self.classes[class].methods.len() {
                let method = &self.classes[class].methods[number];
                if method.bits & IMPLEMENTED != 0 {
                    let policy = method.policy.clone();
                    let calls = self.calls(random, &policy);
                    let code = self.fitting_code(random, &calls);
                    self.model.classes[class].methods[number].code = code;
                }
            }
        }
    }

    /// A code with these calls, or a shorter one where the store's limit asks for it.
    fn fitting_code(&self, random: &mut Random, calls: &[Vec<u8>]) -> Vec<u8> {
        let most = usize::from(self.scene.limits().code);
        let kind = self.scene.kind(self.domain);
        let mut code = valid_code(random, kind, calls);
        if code.len() > most {
            code = valid_code(random, kind, &[]);
        }
        match code.len() <= most {
            true => code,
            false => RETURN.to_vec(),
        }
    }

    /// Some call instructions that a method with this policy may have.
    fn calls(&mut self, random: &mut Random, caller: &Policy) -> Vec<Vec<u8>> {
        let mut found = [Vec::new(), Vec::new()];
        for (package, class, facts) in self.within_reach() {
            for (&name, declared) in facts.meanings() {
                let visible = declared.home == self.model.aid || declared.bits & VISIBLE != 0;
                let policy = &declared.policy;
                if visible && policy.allows(self.domain) && policy.covers(caller) {
                    let kinds = call_kinds(facts.interface, declared.interface, declared.bits);
                    let inherited = facts.methods.iter().all(|m| m.name != name);
                    found[usize::from(inherited)].push(((package, class, name), kinds));
                }
            }
        }
        let mut calls = Vec::new();
        for _ in 0..*random.pick(&[0, 1, 2, 3]) {
            let among = &found[usize::from(random.chance(40))];
            if let Some((reference, kinds)) = random.pick_any(among) {
                let opcode = *random.pick(kinds);
                let index = self.reference(*reference);
                calls.push(call(random, opcode, index));
            }
        }
        calls
    }

    fn reference(&mut self, reference: (u8, u8, u16)) -> u16 {
        let known = self.model.references.iter().position(|r| *r == reference);
        known.unwrap_or_else(|| {
            self.model.references.push(reference);
            self.model.references.len() - 1
        }) as u16
    }
}

/// Names to declare, those that must be declared first.
fn chosen_names(random: &mut Random, class: &ClassFacts) -> Vec<(u16, bool)> {
    let needed = class.falling_short().into_iter();
    let mut names: Vec<(u16, bool)> = needed.map(|name| (name, true)).collect();
    for _ in 0..random.below(5) {
        let name = *random.pick(&[0, 1, 2, 3, 4, 5, 6, 7, 0x0100, 0x8D8D, 0xFFFF]);
        if names.iter().all(|n| n.0 != name) {
            names.push((name, false));
        }
    }
    names
}
