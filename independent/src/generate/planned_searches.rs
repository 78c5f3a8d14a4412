//! Files with one search each, planned for what it meets: a declaration that ends it before one
//! that fits, interfaces in an order that decides, long ways, packages that are not imported.

use super::codes::{call, call_kinds};
use super::faults::{add, deepen, BARE, BODY, RETURN, STATIC_BODY};
use super::handlers::to_second;
use super::model::{FileModel, MethodModel};
use super::random::Random;
use super::scene::Scene;
use crate::limits::Limits;
use crate::package::VISIBLE;
use crate::policy::OWN;

/// The name that is called.
const NAME: u16 = 7;

/// The bytes of the longest code that calls once.
const LONGEST_CALLER: u16 = 6;

/// The call that a file is to make: a class by package and class numbers, a name, an opcode.
type Planned = ((u8, u8, u16), u8);

/// A file with a planned search; `None` where the store's limits or packages leave no room.
pub fn planned_file(
    random: &mut Random,
    scene: &Scene,
    domain: &[u8],
    aid: &[u8],
) -> Option<FileModel> {
    let limits = scene.limits();
    if limits.code < LONGEST_CALLER || limits.parents < 3 || limits.depth < 4 {
        return None;
    }
    let mut model = FileModel {
        aid: aid.to_vec(),
        ..FileModel::default()
    };
    let across = match random.chance(45) {
        true => not_imported(random, scene, domain, &mut model),
        false => None,
    };
    let (reference, opcode) = match across {
        Some(planned) => planned,
        None => within(random, scene, &mut model)?,
    };
    model.references.push(reference);
    let mut code = call(random, opcode, 0);
    code.extend(RETURN);
    let list = &[OWN][..random.below(2)];
    let caller = MethodModel::new(STATIC_BODY, 1, Some(list), &code);
    add(&mut model, 0, &[], vec![caller]);
    if random.chance(50) {
        to_second(random, &mut model);
    }
    Some(model)
}

/// One of the others.
fn within(random: &mut Random, scene: &Scene, model: &mut FileModel) -> Option<Planned> {
    // Ways that the standard limits do not have are longer.
    let longer = scene.limits().depth > Limits::STANDARD.depth && random.chance(30);
    Some(match random.below(10) {
        _ if longer => long_way(random, scene, model),
        0..=2 => ended_early(random, model),
        3..=5 => ordered(random, model),
        6 => interface_named(random, model),
        7 => long_way(random, scene, model),
        _ => return hidden_first(random, scene, model),
    })
}

/// A method of the name; a closed one allows nobody.
fn named(bits: u8, closed: bool) -> Vec<MethodModel> {
    let allowed: Option<&[u8]> = closed.then_some(&[]);
    vec![MethodModel::new(bits, NAME, allowed, RETURN)]
}

/// The class added last, named with the name.
fn last(model: &FileModel) -> (u8, u8, u16) {
    (0, model.classes.len() as u8 - 1, NAME)
}

/// A class whose nearer declaration does not fit, below one whose declaration does.
fn ended_early(random: &mut Random, model: &mut FileModel) -> Planned {
    let (further, nearer, opcode) = *random.pick(&[
        (BODY, STATIC_BODY, 0x8B),
        (BARE, STATIC_BODY, 0x8B),
        (BODY, BARE, 0x8C),
        (STATIC_BODY, BARE, 0x8C),
        (STATIC_BODY, BODY, 0x8D),
    ]);
    add(model, 0, &[], named(further, false));
    add(model, 1, &[], named(BARE, false));
    if random.chance(30) {
        // The further one is an interface's; 8E means it, and so may 8B.
        let nearer = *random.pick(&[STATIC_BODY, BODY]);
        let opcode = if nearer == STATIC_BODY && random.chance(50) {
            0x8B
        } else {
            0x8E
        };
        add(model, 0, &[(0, 1)], named(nearer, false));
        add(model, 0, &[(0, 2)], vec![]);
        return (last(model), opcode);
    }
    add(model, 0, &[(0, 0)], named(nearer, false));
    let below = [(0, 2), (0, 1)];
    let first = random.below(2);
    add(model, 0, &[below[first], below[1 - first]], vec![]);
    (last(model), opcode)
}

/// Two of four interfaces declare the name, and one of the two allows nobody: two are parents
/// of a class, one is above these, one is above its kind-0 parent.
fn ordered(random: &mut Random, model: &mut FileModel) -> Planned {
    let mut declares = [false; 4];
    let first = random.below(4);
    declares[first] = true;
    declares[(first + 1 + random.below(3)) % 4] = true;
    let mut closed = random.chance(50);
    let mut methods = |place: usize| {
        if !declares[place] {
            return vec![];
        }
        closed = !closed;
        named(BARE, closed)
    };
    let (above, left, right, of_parent) = (methods(0), methods(1), methods(2), methods(3));
    add(model, 1, &[], above);
    let [under_left, under_right] = *random.pick(&[[true, false], [false, true], [true, true]]);
    let parents = |under: bool| if under { vec![(0, 0)] } else { vec![] };
    add(model, 1, &parents(under_left), left);
    add(model, 1, &parents(under_right), right);
    add(model, 1, &[], of_parent);
    // A kind-0 parent, and now and then its own with the interfaces.
    add(model, 0, &[(0, 3)], vec![]);
    let mut parents = vec![(0, 1), (0, 2), (0, 4)];
    let turn = random.below(3);
    parents.rotate_left(turn);
    if random.chance(50) {
        parents.swap(0, 1);
    }
    add(model, 0, &parents, vec![]);
    let mut called = last(model);
    if random.chance(30) {
        add(model, 0, &[(0, called.1)], vec![]);
        called = last(model);
    }
    (called, *random.pick(&[0x8B, 0x8E]))
}

/// 8B of an interface that declares or inherits the name.
fn interface_named(random: &mut Random, model: &mut FileModel) -> Planned {
    add(model, 1, &[], named(BARE, false));
    if random.chance(60) {
        add(model, 1, &[(0, 0)], vec![]);
    }
    (last(model), *random.pick(&[0x8B, 0x8B, 0x8E]))
}

/// A chain to the depth limit and the most parents, where the first class declares the name or
/// none does.
fn long_way(random: &mut Random, scene: &Scene, model: &mut FileModel) -> Planned {
    let limits = scene.limits();
    let kind = random.below(2) as u8;
    deepen(random, scene, model, kind, limits.depth - 1);
    if let Some(first) = model.classes.first_mut().filter(|_| random.chance(50)) {
        let bits = if first.kind == 1 { BARE } else { BODY };
        first.methods = named(bits, random.chance(30));
    }
    let count = model.classes.len() as u8;
    let Some(above) = count.checked_sub(1) else {
        add(model, 0, &[], vec![]);
        return (last(model), 0x8B);
    };
    let kind = model.classes[usize::from(above)].kind;
    let mut parents = vec![(0, above)];
    if kind == 1 {
        parents.resize(limits.parents.into(), (0, above));
    }
    add(model, kind, &parents, vec![]);
    let opcode = if kind == 1 { 0x8E } else { 0x8B };
    (last(model), opcode)
}

/// A class below an installed one with a method that is not visible, and below an own interface
/// that declares the name too.
fn hidden_first(random: &mut Random, scene: &Scene, model: &mut FileModel) -> Option<Planned> {
    let mut hidden = Vec::new();
    for package in &scene.packages {
        for (number, class) in package.classes.iter().enumerate() {
            let unseen = class.methods.iter().filter(|m| m.bits & VISIBLE == 0);
            let fitting = unseen.filter(|_| class.depth < scene.limits().depth);
            hidden.extend(fitting.map(|m| (&package.model.aid, number as u8, class, m)));
        }
    }
    let &(aid, number, class, method) = random.pick_any(&hidden)?;
    model.imports.push(aid.clone());
    let allowed: Option<&[u8]> = Some(&[OWN][..random.below(2)]).filter(|_| random.chance(50));
    let seen = MethodModel::new(BARE, method.name, allowed, &[]);
    add(model, 1, &[], vec![seen]);
    add(model, 0, &[(1, number), (0, 0)], vec![]);
    let reference = (0, 1, method.name);
    let kinds = call_kinds(false, class.interface, method.bits);
    Some((reference, *random.pick(&[kinds[0], 0x8B, 0x8E])))
}

/// An installed class, or an own one below it, that inherits from a package that the file does
/// not import.
fn not_imported(
    random: &mut Random,
    scene: &Scene,
    domain: &[u8],
    model: &mut FileModel,
) -> Option<Planned> {
    let mut found = Vec::new();
    for package in &scene.packages {
        for (number, class) in package.classes.iter().enumerate() {
            for (&name, declared) in class.meanings() {
                let inherited = declared.home != package.model.aid;
                let kinds = call_kinds(class.interface, declared.interface, declared.bits);
                if inherited && declared.bits & VISIBLE != 0 && !kinds.is_empty() {
                    let allows = declared.policy.allows(domain);
                    found.push((&package.model.aid, number as u8, class, name, kinds, allows));
                }
            }
        }
    }
    if random.chance(70) && found.iter().any(|f| !f.5) {
        found.retain(|f| !f.5);
    }
    let (aid, number, class, name, kinds, _) = random.pick_any(&found)?;
    model.imports.push(aid.to_vec());
    let mut reference = (1, *number, *name);
    if class.depth < scene.limits().depth && random.chance(40) {
        reference = (0, model.classes.len() as u8, *name);
        add(model, class.interface.into(), &[(1, *number)], vec![]);
    }
    Some((reference, *random.pick(kinds)))
}
