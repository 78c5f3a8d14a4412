//! Files whose calls name classes that inherit. Names are few, so that searches meet several
//! declarations of every form, own ones and installed ones.

use super::codes::{call, call_kinds};
use super::facts::{ClassFacts, MethodFacts, Policy};
use super::faults::{RETURN, STATIC_BODY};
use super::handlers::to_second;
use super::model::{ClassModel, FileModel, MethodModel};
use super::random::Random;
use super::scene::Scene;
use crate::package::{IMPLEMENTED, STATIC, VISIBLE};
use crate::policy::OWN;

/// The names that are declared; calls give one more.
const NAMES: [u16; 4] = [1, 2, 3, 9];

/// The longest code of a method that calls.
const LONGEST_CALLER: u16 = 11;

/// How often of a hundred times something is chosen.
struct Flavour {
    /// A class is an interface.
    interfaces: usize,
    /// A class declares a name.
    declares: usize,
    /// A method is visible.
    visible: usize,
    /// A method that cannot run allows nobody.
    closed: usize,
    /// A call has the opcode that its declaration asks for.
    fitting: usize,
}

/// Of everything; of interfaces, told apart by whom they allow; of classes in every form.
const FLAVOURS: [Flavour; 3] = [
    Flavour {
        interfaces: 50,
        declares: 25,
        visible: 75,
        closed: 10,
        fitting: 75,
    },
    Flavour {
        interfaces: 75,
        declares: 30,
        visible: 85,
        closed: 50,
        fitting: 85,
    },
    Flavour {
        interfaces: 20,
        declares: 40,
        visible: 60,
        closed: 10,
        fitting: 45,
    },
];

struct Draft<'a> {
    flavour: &'a Flavour,
    scene: &'a Scene,
    domain: &'a [u8],
    /// Numbers of the imported packages in the scene.
    imports: Vec<usize>,
    model: FileModel,
    classes: Vec<ClassFacts>,
}

/// A file of classes and interfaces with parents wherever they are allowed, and a method that
/// calls by names of which some are declared; `None` where codes are too short for a call.
pub fn searching_file(
    random: &mut Random,
    scene: &Scene,
    domain: &[u8],
    aid: &[u8],
) -> Option<FileModel> {
    if scene.limits().code < LONGEST_CALLER {
        return None;
    }
    let mut draft = Draft {
        flavour: random.pick(&FLAVOURS),
        scene,
        domain,
        imports: Vec::new(),
        model: FileModel {
            aid: aid.to_vec(),
            ..FileModel::default()
        },
        classes: Vec::new(),
    };
    draft.choose_imports(random);
    let most = usize::from(scene.limits().depth);
    let deep = random.chance(30);
    let count = match deep {
        true => random.between(most, most + 4),
        false => random.between(2, 8),
    };
    for _ in 0..count {
        draft.add_class(random, deep);
    }
    draft.add_caller(random);
    let mut model = draft.model;
    if random.chance(50) {
        to_second(random, &mut model);
    }
    Some(model)
}

impl Draft<'_> {
    /// Up to three packages that have classes.
    fn choose_imports(&mut self, random: &mut Random) {
        let packages = self.scene.packages.iter().enumerate();
        let with_classes = packages.filter(|(_, p)| !p.classes.is_empty());
        let numbers: Vec<usize> = with_classes.map(|(number, _)| number).collect();
        for _ in 0..random.below(4) {
            if let Some(&number) = random.pick_any(&numbers) {
                self.imports.push(number);
                let aid = self.scene.packages[number].model.aid.clone();
                self.model.imports.push(aid);
            }
        }
    }

    /// Package and class numbers of the classes within reach, the own ones last.
    fn within_reach(&self) -> Vec<(u8, u8, &ClassFacts)> {
        let packages = self.imports.iter().enumerate();
        let packages = packages.map(|(k, &p)| (k as u8 + 1, &self.scene.packages[p].classes));
        let all = packages.chain([(0, &self.classes)]);
        all.flat_map(|(package, classes)| {
            let classes = classes.iter().enumerate();
            classes.map(move |(class, facts)| (package, class as u8, facts))
        })
        .collect()
    }

    fn add_class(&mut self, random: &mut Random, deep: bool) {
        let limits = self.scene.limits();
        let interface = random.chance(self.flavour.interfaces);
        let mut reach = self.within_reach();
        reach.retain(|class| class.2.depth < limits.depth);
        let mut parents: Vec<(u8, u8, &ClassFacts)> = Vec::new();
        for _ in 0..random.between(1, limits.parents.into()) {
            let taken = interface || parents.iter().any(|p| !p.2.interface);
            let picked = match deep && random.chance(70) {
                true => reach.last(),
                false => random.pick_any(&reach),
            };
            parents.extend(picked.filter(|class| class.2.interface || !taken));
        }
        let facts: Vec<&ClassFacts> = parents.iter().map(|p| p.2).collect();
        let mut facts = ClassFacts::under(&self.model.aid, interface, &facts);
        let numbers: Vec<(u8, u8)> = parents.iter().map(|p| (p.0, p.1)).collect();
        let mut class = ClassModel::new(u8::from(interface), &numbers, Vec::new());
        // A running method that allows less than it must is run over by one that allows all.
        for name in facts.falling_short() {
            let bits = VISIBLE | IMPLEMENTED;
            class
                .methods
                .push(MethodModel::new(bits, name, None, RETURN));
            let policy = Policy::Every;
            facts.declare(MethodFacts { bits, name, policy });
        }
        let declares = self.flavour.declares / if deep { 3 } else { 1 };
        for &name in &NAMES[..3] {
            let known = class.methods.iter().any(|m| m.name == name);
            if !known && random.chance(declares) {
                let (method, declared) = self.method(random, interface, name);
                class.methods.push(method);
                facts.declare(declared);
            }
        }
        self.classes.push(facts);
        self.model.classes.push(class);
    }

    /// A method of any form; one that may run allows all.
    fn method(
        &self,
        random: &mut Random,
        interface: bool,
        name: u16,
    ) -> (MethodModel, MethodFacts) {
        let mut bits = if random.chance(self.flavour.visible) {
            VISIBLE
        } else {
            0
        };
        if !interface {
            bits |= *random.pick(&[0, IMPLEMENTED, IMPLEMENTED, IMPLEMENTED | STATIC]);
        }
        let runs = bits & (IMPLEMENTED | STATIC) == IMPLEMENTED;
        let closed = !runs && random.chance(self.flavour.closed);
        let own = !runs && random.chance(10);
        let allowed = match (closed, own) {
            (true, _) => Some(vec![]),
            (false, true) => Some(vec![OWN]),
            _ => None,
        };
        let policy = match &allowed {
            None => Policy::Every,
            Some(list) if list.is_empty() => Policy::nobody(),
            Some(_) => Policy::Only([self.domain.to_vec()].into()),
        };
        let model = MethodModel::new(bits, name, allowed.as_deref(), RETURN);
        (model, MethodFacts { bits, name, policy })
    }

    /// A class whose method makes one call or two; most may be made.
    fn add_caller(&mut self, random: &mut Random) {
        let mut code = Vec::new();
        for index in 0..random.between(1, 2) {
            let Some((reference, opcode)) = self.some_call(random) else {
                break;
            };
            self.model.references.push(reference);
            code.extend(call(random, opcode, index as u16));
        }
        code.extend(RETURN);
        let list = &[OWN][..random.below(2)];
        let caller = MethodModel::new(STATIC_BODY, 1, Some(list), &code);
        self.model
            .classes
            .push(ClassModel::new(0, &[], vec![caller]));
    }

    /// A reference and an opcode. Classes that declare the name themselves are mostly left out.
    fn some_call(&self, random: &mut Random) -> Option<((u8, u8, u16), u8)> {
        let reach = self.within_reach();
        let own = random.chance(60);
        let mut picks: Vec<_> = reach.iter().filter(|c| !own || c.0 == 0).collect();
        let name = *random.pick(&NAMES);
        if random.chance(85) {
            picks.retain(|c| c.2.methods.iter().all(|m| m.name != name));
        }
        if random.chance(60) {
            picks.retain(|c| c.2.meant(name).is_some());
        }
        let &&(package, class, facts) = random.pick_any(&picks)?;
        let fitting = match facts.meant(name) {
            Some(found) => call_kinds(facts.interface, found.interface, found.bits),
            None => Vec::new(),
        };
        let fitting = random.pick_any(&fitting).copied();
        let opcode = fitting.filter(|_| random.chance(self.flavour.fitting));
        let opcode = opcode.unwrap_or(0x8B + random.below(4) as u8);
        Some(((package, class, name), opcode))
    }
}
