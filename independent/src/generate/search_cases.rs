//! Fixed sequences of request 3: the name declared in every choice of a hierarchy's classes, in
//! every form, called in every way.

use super::faults::{RETURN, STATIC_BODY};
use super::model::{ClassModel, FileModel, MethodModel};
use super::special::{after, load, load_in, DOMAIN, FIRST, OTHER, SECOND, THIRD};
use crate::ledger::Call;
use crate::limits::Limits;
use crate::loader::Sequence;
use crate::package::{Version, IMPLEMENTED, STATIC, VISIBLE};
use crate::policy::OWN;

/// The name that is declared and called.
pub const NAME: u16 = 7;

/// The opcodes of calls.
pub const CALLS: [u8; 4] = [0x8B, 0x8C, 0x8D, 0x8E];

/// A call of the reference at index 0.
fn calling(opcode: u8) -> Vec<u8> {
    match opcode {
        0x8E => vec![opcode, 0, 0, 0, 0, 0x7A],
        _ => vec![opcode, 0, 0, 0x7A],
    }
}

/// A class whose method, which allows nobody, has this call.
fn caller(opcode: u8) -> ClassModel {
    let method = MethodModel::new(STATIC_BODY, 1, Some(&[]), &calling(opcode));
    ClassModel::new(0, &[], vec![method])
}

/// A file of these classes, of either version by turns.
fn file(aid: &[u8], imports: &[&[u8]], classes: Vec<ClassModel>) -> FileModel {
    FileModel {
        version: Version::BOTH[classes.len() % 2],
        aid: aid.to_vec(),
        imports: imports.iter().map(|aid| aid.to_vec()).collect(),
        classes,
        ..FileModel::default()
    }
}

/// The kinds and parents of a hierarchy, in three packages: the third is that of the calls, the
/// second imports the first, the third the second alone. The last class is the one named.
pub struct Shape {
    pub first: &'static [(u8, &'static [(u8, u8)])],
    pub second: &'static [(u8, &'static [(u8, u8)])],
    pub third: &'static [(u8, &'static [(u8, u8)])],
}

/// A class with a kind-0 parent and interfaces before and behind it, one of which is above two;
/// the same in the other order; an interface with two parents that meet; and a long kind-0
/// chain with an interface each.
pub const SHAPES: [Shape; 4] = [
    Shape {
        first: &[(1, &[]), (0, &[(0, 0)])],
        second: &[(1, &[(1, 0)]), (0, &[(1, 1)])],
        third: &[(1, &[]), (0, &[(1, 0), (1, 1), (0, 0)])],
    },
    Shape {
        first: &[(1, &[]), (1, &[])],
        second: &[(0, &[(1, 1)]), (1, &[(1, 0), (1, 1)])],
        third: &[(1, &[(1, 1)]), (0, &[(0, 0), (1, 0)])],
    },
    Shape {
        first: &[(1, &[]), (1, &[(0, 0)])],
        second: &[(1, &[(1, 0)]), (1, &[(1, 1), (0, 0)])],
        third: &[(1, &[]), (1, &[(1, 1), (1, 0), (0, 0)])],
    },
    Shape {
        first: &[(1, &[]), (0, &[(0, 0)])],
        second: &[(1, &[]), (0, &[(0, 0), (1, 1)])],
        third: &[(1, &[]), (0, &[(1, 1), (0, 0)]), (0, &[(0, 1)])],
    },
];

/// The methods of one class.
pub type Methods = Vec<MethodModel>;

impl Shape {
    /// The kind of each class, those of the first package first.
    pub fn kinds(&self) -> Vec<u8> {
        let all = [self.first, self.second, self.third].concat();
        all.iter().map(|class| class.0).collect()
    }

    /// The packages, the methods of each class and the call given.
    pub fn packages(&self, methods: &[Methods], opcode: u8) -> [FileModel; 3] {
        let mut methods = methods.iter();
        let mut classes = |shape: &[(u8, &[(u8, u8)])]| -> Vec<ClassModel> {
            shape
                .iter()
                .map(|&(kind, parents)| {
                    let methods = methods.next().expect("methods of each class");
                    ClassModel::new(kind, parents, methods.clone())
                })
                .collect()
        };
        let first = file(FIRST, &[], classes(self.first));
        let second = file(SECOND, &[FIRST], classes(self.second));
        let mut third = classes(self.third);
        third.push(caller(opcode));
        let mut third = file(THIRD, &[SECOND], third);
        third.references = vec![(0, self.third.len() as u8 - 1, NAME)];
        [first, second, third]
    }

    /// The packages loaded, the third in a domain of its own, and removed.
    fn calls(&self, methods: &[Methods], opcode: u8) -> Vec<Call> {
        let [first, second, third] = self.packages(methods, opcode);
        let mut calls = vec![load(&first), load(&second), load_in(OTHER, &third)];
        calls.extend([THIRD, SECOND, FIRST].map(|aid| Call::Remove(aid.to_vec())));
        calls
    }
}

/// The name as a class of this kind may declare it: visible, and implemented in a class; one
/// allows nobody.
fn plain(kind: u8, closed: bool) -> MethodModel {
    let bits = match kind {
        1 => VISIBLE,
        _ => VISIBLE | IMPLEMENTED,
    };
    let nobody: Option<&[u8]> = closed.then_some(&[]);
    MethodModel::new(bits, NAME, nobody, RETURN)
}

/// After either fresh, the second with the greatest limits: these calls.
fn after_both(calls: Vec<Call>) -> [Sequence; 2] {
    let firsts = [Call::Fresh, Call::FreshLimits(Limits::GREATEST)];
    firsts.map(|first| after(first, 1024, calls.clone()))
}

/// Each choice of the classes that declare the name, and each of these the one that allows
/// nobody: 19 tells which declaration is found.
pub fn places() -> Vec<Sequence> {
    let mut sequences = Vec::new();
    for shape in &SHAPES {
        let kinds = shape.kinds();
        let mut calls = Vec::new();
        for choice in 0..1_u32 << kinds.len() {
            let declares = |class: usize| choice >> class & 1 == 1;
            let closed = (0..kinds.len()).filter(|&class| declares(class));
            for closed in closed.chain([kinds.len()]) {
                let methods = |(class, &kind): (usize, &u8)| match declares(class) {
                    true => vec![plain(kind, class == closed)],
                    false => vec![],
                };
                let methods: Vec<Methods> = kinds.iter().enumerate().map(methods).collect();
                let opcode = if kinds[kinds.len() - 1] == 1 {
                    0x8E
                } else {
                    0x8B
                };
                calls.extend(shape.calls(&methods, opcode));
            }
        }
        sequences.extend(after_both(calls));
    }
    sequences
}

/// The forms that a method of a class of this kind may have.
pub fn forms(kind: u8) -> &'static [u8] {
    const BOTH: u8 = IMPLEMENTED | STATIC;
    match kind {
        1 => &[0, VISIBLE],
        _ => &[
            0,
            VISIBLE,
            IMPLEMENTED,
            VISIBLE | IMPLEMENTED,
            BOTH,
            VISIBLE | BOTH,
        ],
    }
}

/// One class declares the name in every form, another in a plain one or none does, and it is
/// called in every way.
pub fn all_forms() -> Vec<Sequence> {
    let mut sequences = Vec::new();
    for shape in &SHAPES {
        let kinds = shape.kinds();
        let mut calls = Vec::new();
        for formed in 0..kinds.len() {
            for other in 0..kinds.len() {
                for &form in forms(kinds[formed]) {
                    for opcode in CALLS {
                        let mut methods = vec![vec![]; kinds.len()];
                        methods[other] = vec![plain(kinds[other], false)];
                        methods[formed] = vec![MethodModel::new(form, NAME, None, RETURN)];
                        calls.extend(shape.calls(&methods, opcode));
                    }
                }
            }
        }
        sequences.extend(after_both(calls));
    }
    sequences
}

/// A declaration that allows a list, called through a class of another package by a method that
/// allows a list, in domains of both packages.
pub fn lists() -> Vec<Sequence> {
    let lists: [Option<&[u8]>; 6] = [
        None,
        Some(&[]),
        Some(&[OWN]),
        Some(&[0]),
        Some(&[1]),
        Some(&[0, 1]),
    ];
    let domains = || vec![DOMAIN.to_vec(), OTHER.to_vec()];
    let mut calls = Vec::new();
    for declared in lists {
        let method = |bits| vec![MethodModel::new(bits, NAME, declared, RETURN)];
        let above = FileModel {
            domains: domains(),
            ..file(
                FIRST,
                &[],
                vec![
                    ClassModel::new(0, &[], method(VISIBLE | IMPLEMENTED)),
                    ClassModel::new(1, &[], method(VISIBLE)),
                ],
            )
        };
        calls.push(load(&above));
        for (calling_list, home) in lists
            .iter()
            .flat_map(|&list| [DOMAIN, OTHER].map(|home| (list, home)))
        {
            for (kind, above, opcode) in [(0, 0, 0x8B), (0, 1, 0x8B), (0, 1, 0x8E), (1, 1, 0x8E)] {
                let code = calling(opcode);
                let caller = MethodModel::new(STATIC_BODY, 1, calling_list, &code);
                let classes = vec![
                    ClassModel::new(kind, &[(1, above)], vec![]),
                    ClassModel::new(0, &[], vec![caller]),
                ];
                let model = FileModel {
                    domains: domains(),
                    references: vec![(0, 0, NAME)],
                    ..file(SECOND, &[FIRST], classes)
                };
                calls.push(load_in(home, &model));
                calls.push(Call::Remove(SECOND.to_vec()));
            }
        }
        calls.push(Call::Remove(FIRST.to_vec()));
    }
    after_both(calls).into()
}
