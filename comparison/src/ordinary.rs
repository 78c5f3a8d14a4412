//! Ordinary packages: a few classes with overriding, an interface, short codes with
//! calls of their own and imported methods.

use independent::generate::codes::{call, valid_code};
use independent::generate::model::{ClassModel, FileModel, MethodModel};
use independent::generate::random::Random;
use independent::policy::OWN;
use independent::without_int::DomainKind;

/// How many bytes a code has at least, where nothing else is asked for.
pub const CODE: usize = 24;

pub(crate) const VISIBLE: u8 = 0x80;
pub(crate) const BODY: u8 = 0xC0;
pub(crate) const STATIC_BODY: u8 = 0xE0;

/// The AID of a domain.
pub fn domain(number: usize) -> Vec<u8> {
    vec![0xA0, 0, 0, 2, 0x47, 0xD0, 0, number as u8]
}

/// The AID of a package.
pub fn package(number: usize) -> Vec<u8> {
    let [high, low] = (number as u16).to_be_bytes();
    vec![0xA0, 0, 0, 2, 0x47, 0x50, high, low]
}

/// The AID of the domain in which a package is loaded; there are four.
pub fn home(number: usize) -> Vec<u8> {
    domain(number % 4)
}

/// How a package's lists say the domain in which it is loaded.
#[derive(Clone, Copy, PartialEq, Eq)]
pub enum Own {
    /// By its index, the first; the next domain is the second.
    Index,
    /// By FE; the next domain is the only index.
    Fe,
}

impl Own {
    fn domains(self, number: usize) -> Vec<Vec<u8>> {
        match self {
            Own::Index => vec![home(number), home(number + 1)],
            Own::Fe => vec![home(number + 1)],
        }
    }

    /// A list of the own domain.
    pub(crate) fn closed(self) -> &'static [u8] {
        match self {
            Own::Index => &[0],
            Own::Fe => &[OWN],
        }
    }

    /// A list of the own domain and the next.
    pub(crate) fn shared(self) -> &'static [u8] {
        match self {
            Own::Index => &[0, 1],
            Own::Fe => &[OWN, 0],
        }
    }
}

pub(crate) struct Draft<'r> {
    pub random: &'r mut Random,
    pub model: FileModel,
    pub own: Own,
    /// The kind of domain whose instructions the codes have.
    kind: DomainKind,
    /// The least length of a code.
    code: usize,
    /// Calls that every method may have, and those for methods that only allow
    /// the loading domain.
    pub open: Vec<(u8, (u8, u8, u16))>,
    pub closed: Vec<(u8, (u8, u8, u16))>,
}

/// The package of this number, with this many groups of three classes, over earlier
/// packages from number 1 on: nothing imports package 0.
pub fn ordinary(number: usize, groups: u8, code: usize, own: Own) -> FileModel {
    drafted(number, groups, code, own, DomainKind::WithInt)
}

/// The package of this number, of one group with short codes that a domain of this kind takes.
pub fn ordinary_of(kind: DomainKind, number: usize) -> FileModel {
    drafted(number, 1, CODE, Own::Index, kind)
}

/// The package of this number without classes and calls yet.
pub(crate) fn begun(
    random: &mut Random,
    number: usize,
    code: usize,
    own: Own,
    kind: DomainKind,
) -> Draft<'_> {
    let mut model = FileModel {
        aid: package(number),
        domains: own.domains(number),
        ..FileModel::default()
    };
    if number > 1 {
        for _ in 0..random.between(1, 2) {
            model.imports.push(package(random.between(1, number - 1)));
        }
    }
    Draft {
        random,
        open: Vec::new(),
        closed: Vec::new(),
        model,
        own,
        kind,
        code,
    }
}

fn drafted(number: usize, groups: u8, code: usize, own: Own, kind: DomainKind) -> FileModel {
    let random = &mut Random::new(number as u64);
    let mut draft = begun(random, number, code, own, kind);
    for import in 1..=draft.model.imports.len() as u8 {
        draft.open.push((0x8D, (import, 0, 2)));
        draft.open.push((0x8B, (import, 0, 1)));
    }
    for group in 0..groups {
        draft.add_group(3 * group);
    }
    draft.model
}

impl Draft<'_> {
    /// A class, an interface, and a class under that interface and an own or imported class.
    fn add_group(&mut self, first: u8) {
        let imported = !self.model.imports.is_empty() && self.random.chance(50);
        let above = if imported { (1, 0) } else { (0, first) };
        self.open.push((0x8D, (0, first, 2)));
        self.open.push((0x8B, (0, first, 1)));
        self.closed.push((0x8E, (0, first + 1, 4)));
        self.closed.push((0x8D, (0, first + 2, 6)));
        let (closed, shared) = (Some(self.own.closed()), Some(self.own.shared()));
        let base = vec![
            self.method(BODY, 1, None),
            self.method(STATIC_BODY, 2, None),
            self.method(STATIC_BODY, 3, None),
        ];
        let interface = vec![
            self.method(VISIBLE, 4, closed),
            self.method(VISIBLE, 5, closed),
        ];
        let derived = vec![
            self.method(BODY, 1, None),
            self.method(BODY, 4, closed),
            self.method(BODY, 5, shared),
            self.method(STATIC_BODY, 6, closed),
        ];
        let classes = &mut self.model.classes;
        classes.push(ClassModel::new(0, &[], base));
        classes.push(ClassModel::new(1, &[], interface));
        let parents = [above, (0, first + 1)];
        classes.push(ClassModel::new(0, &parents, derived));
    }

    pub(crate) fn method(&mut self, bits: u8, name: u16, allowed: Option<&[u8]>) -> MethodModel {
        let code = match bits {
            VISIBLE => Vec::new(),
            _ => self.body(allowed == Some(self.own.closed())),
        };
        MethodModel::new(bits, name, allowed, &code)
    }

    /// Codes that pass by themselves, one after the other.
    fn body(&mut self, closed: bool) -> Vec<u8> {
        let mut code = Vec::new();
        while code.len() < self.code {
            let calls = [self.call(closed)];
            code.extend(valid_code(self.random, self.kind, &calls));
        }
        code
    }

    fn call(&mut self, closed: bool) -> Vec<u8> {
        let list = match closed && self.random.chance(50) {
            true => &self.closed,
            false => &self.open,
        };
        let (opcode, reference) = *self.random.pick(list);
        let references = &mut self.model.references;
        let known = references.iter().position(|r| *r == reference);
        let index = known.unwrap_or_else(|| {
            references.push(reference);
            references.len() - 1
        });
        call(self.random, opcode, index as u16)
    }
}

/// An ordinary package of about this many bytes, some thousands.
pub fn of_size(number: usize, size: usize) -> FileModel {
    // Ten groups have seventy codes; the rest is not as long as fifty of them.
    let mut code = size / 120;
    loop {
        let model = ordinary(number, 10, code, Own::Index);
        if model.bytes().len() >= size {
            return model;
        }
        code += 2;
    }
}

/// A package of this number with many long codes and no call.
pub fn of_codes(number: usize, methods: u16, length: usize) -> FileModel {
    let random = &mut Random::new(number as u64);
    let mut declared = Vec::new();
    for name in 0..methods {
        let mut code = Vec::new();
        while code.len() < length {
            code.extend(valid_code(random, DomainKind::WithInt, &[]));
        }
        declared.push(MethodModel::new(STATIC_BODY, name, None, &code));
    }
    FileModel {
        aid: package(number),
        classes: vec![ClassModel::new(0, &[], declared)],
        ..FileModel::default()
    }
}
