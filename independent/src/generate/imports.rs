//! Files whose answers hang on where their imports lie: they import several packages, some twice
//! or as many as there may be, and call them.

use super::codes::{call, call_kinds};
use super::facts::{ClassFacts, Declared};
use super::faults::{add, RETURN, STATIC_BODY};
use super::handlers::to_second;
use super::model::{FileModel, MethodModel};
use super::random::Random;
use super::scene::Scene;
use crate::package::{MAX_IMPORTS, VISIBLE};
use crate::policy::OWN;

/// A reference and the opcode of a call by it.
type Planned = ((u8, u8, u16), u8);

struct Draft<'a> {
    scene: &'a Scene,
    domain: &'a [u8],
    /// Numbers of the imported packages in the scene.
    imports: Vec<usize>,
    model: FileModel,
    /// One of the calls shall be refused.
    refused: bool,
    calls: Vec<Planned>,
}

/// A file that imports installed packages and calls them; `None` where there is none.
pub fn importing_file(
    random: &mut Random,
    scene: &Scene,
    domain: &[u8],
    aid: &[u8],
) -> Option<FileModel> {
    let mut draft = Draft {
        scene,
        domain,
        imports: Vec::new(),
        model: FileModel {
            aid: aid.to_vec(),
            ..FileModel::default()
        },
        refused: random.chance(35),
        calls: Vec::new(),
    };
    draft.choose_imports(random)?;
    draft.call_imports(random);
    if random.chance(40) {
        draft.call_through_own(random);
    }
    draft.add_past(random);
    draft.add_caller(random);
    let mut model = draft.model;
    if random.chance(18) {
        leave_out(random, scene, &mut model);
    }
    if random.chance(50) {
        to_second(random, &mut model);
    }
    Some(model)
}

/// One of the imports is not installed; its AID is nearly that of one that is, or another.
fn leave_out(random: &mut Random, scene: &Scene, model: &mut FileModel) {
    let place = random.below(model.imports.len());
    let aid = &mut model.imports[place];
    let last = aid.len() - 1;
    match random.below(8) {
        0..=2 if last >= 5 => aid.truncate(last),
        3 if last < 15 => aid.push(random.byte()),
        4..=5 if last < 15 => aid.push(0),
        6 => aid[last] ^= 1 << random.below(8),
        _ => aid.clone_from(random.pick(&scene.package_pool)),
    }
}

impl Draft<'_> {
    /// Some of the installed packages in any order, some of them twice.
    fn choose_imports(&mut self, random: &mut Random) -> Option<()> {
        let packages = &self.scene.packages;
        let most = random.chance(25);
        let count = match most {
            true => MAX_IMPORTS,
            false => random.between(1, 5),
        };
        let mut left: Vec<usize> = (0..packages.len()).collect();
        while self.imports.len() < count {
            let twice = random
                .chance(15)
                .then(|| random.pick_any(&self.imports).copied());
            let next = match twice.flatten() {
                Some(again) => again,
                None if left.is_empty() => *random.pick_any(&self.imports)?,
                None => left.swap_remove(random.below(left.len())),
            };
            self.imports.push(next);
        }
        let aids = self.imports.iter().map(|&p| packages[p].model.aid.clone());
        self.model.imports = aids.collect();
        Some(())
    }

    /// May the file call this declaration?
    fn may_call(&self, declared: &Declared) -> bool {
        declared.bits & VISIBLE != 0 && declared.policy.allows(self.domain)
    }

    /// The classes of the k-th import.
    fn classes(&self, k: usize) -> &[ClassFacts] {
        &self.scene.packages[self.imports[k]].classes
    }

    /// A call that may be made by a class, or one that may not.
    fn some_call(&self, random: &mut Random, class: &ClassFacts, good: bool) -> Option<(u16, u8)> {
        let mut found = Vec::new();
        for (&name, declared) in class.meanings() {
            let kinds = call_kinds(class.interface, declared.interface, declared.bits);
            if self.may_call(declared) == good {
                found.extend(kinds.iter().map(|&opcode| (name, opcode)));
            }
        }
        // A name that is not declared.
        let missing = [1, 2]
            .into_iter()
            .filter(|&name| class.meant(name).is_none());
        if !good {
            found.extend(missing.map(|name| (name, 0x8B + random.below(3) as u8)));
        }
        random.pick_any(&found).copied()
    }

    /// Calls of most imports, of the first and the last in any case.
    fn call_imports(&mut self, random: &mut Random) {
        let last = self.imports.len() - 1;
        let refused = random.below(last + 1);
        for k in 0..=last {
            let good = !(self.refused && k == refused);
            if good && k != 0 && k != last && random.chance(30) {
                continue;
            }
            let count = self.classes(k).len();
            if count == 0 {
                continue;
            }
            let class = random.below(count);
            let planned = self.some_call(random, &self.classes(k)[class], good);
            let reference = |name| (k as u8 + 1, class as u8, name);
            self.calls
                .extend(planned.map(|(name, opcode)| (reference(name), opcode)));
        }
    }

    /// A call by an own class below an imported one, now and then with a class between.
    fn call_through_own(&mut self, random: &mut Random) {
        let k = random.below(self.imports.len());
        let limits = self.scene.limits();
        let room = |class: &ClassFacts| class.depth + 1 < limits.depth;
        let classes = self.classes(k);
        let picks: Vec<usize> = (0..classes.len()).filter(|&c| room(&classes[c])).collect();
        let Some(&class) = random.pick_any(&picks) else {
            return;
        };
        let facts = classes[class].clone();
        let planned = self.some_call(random, &facts, !self.refused);
        let kind = facts.interface.into();
        add(&mut self.model, kind, &[(k as u8 + 1, class as u8)], vec![]);
        if random.chance(30) {
            add(&mut self.model, kind, &[(0, 0)], vec![]);
        }
        let own = self.model.classes.len() as u8 - 1;
        self.calls
            .extend(planned.map(|(name, opcode)| ((0, own, name), opcode)));
    }

    /// References with a package number past the imports, called now and then.
    fn add_past(&mut self, random: &mut Random) {
        if random.chance(60) {
            return;
        }
        let one_past = self.imports.len() as u8 + 1;
        let number = *random.pick(&[one_past, 16, 16, 17, 255, 255]);
        let reference = (number, 0, 1 + random.below(2) as u16);
        if random.chance(35) {
            self.calls
                .push((reference, [0x8D, 0x8B][usize::from(reference.2 == 2)]));
        } else {
            self.model.references.push(reference);
        }
    }

    /// A class whose method makes the calls, in any order.
    fn add_caller(&mut self, random: &mut Random) {
        let mut code = Vec::new();
        while !self.calls.is_empty() {
            let (reference, opcode) = self.calls.swap_remove(random.below(self.calls.len()));
            let index = self.model.references.len() as u16;
            self.model.references.push(reference);
            code.extend(call(random, opcode, index));
        }
        code.extend(RETURN);
        let list = &[OWN][..random.below(2)];
        let caller = MethodModel::new(STATIC_BODY, 1, Some(list), &code);
        add(&mut self.model, 0, &[], vec![caller]);
    }
}
