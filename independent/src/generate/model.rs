//! A package file as a structure, and its bytes. Nothing is checked here, so that
//! faulty files can be built too.

use crate::handlers::Handler;
use crate::limits::Limits;
use crate::package::{self, Version, IMPLEMENTED, MARK, STATIC, VISIBLE};
use crate::policy::{Policy, EVERY};

#[derive(Clone, Debug, Default, PartialEq, Eq)]
pub struct FileModel {
    pub version: Version,
    pub aid: Vec<u8>,
    pub domains: Vec<Vec<u8>>,
    pub imports: Vec<Vec<u8>>,
    pub references: Vec<(u8, u8, u16)>,
    pub classes: Vec<ClassModel>,
}

#[derive(Clone, Debug, Default, PartialEq, Eq)]
pub struct ClassModel {
    pub kind: u8,
    pub parents: Vec<(u8, u8)>,
    pub methods: Vec<MethodModel>,
}

#[derive(Clone, Debug, PartialEq, Eq)]
pub struct MethodModel {
    pub bits: u8,
    pub name: u16,
    /// `None` is FF.
    pub allowed: Option<Vec<u8>>,
    /// Written when the bits say implemented.
    pub code: Vec<u8>,
    /// Written after the code in version 2.
    pub handlers: Vec<Handler>,
}

/// Places in a file.
#[derive(Default)]
struct Places {
    /// Of each policy's allowed count.
    policies: Vec<usize>,
    /// Of each handler count.
    handlers: Vec<usize>,
    /// Of each class number and each low byte of a name in a reference, of each class number of
    /// a parent, and of each method's bits.
    links: Vec<usize>,
}

impl FileModel {
    pub fn bytes(&self) -> Vec<u8> {
        self.written().0
    }

    /// The place of each policy's allowed count in the file.
    pub fn policy_places(&self) -> Vec<usize> {
        self.written().1.policies
    }

    /// The place of each handler count in the file.
    pub fn handler_places(&self) -> Vec<usize> {
        self.written().1.handlers
    }

    /// The place of each byte by which references, parents and forms of methods are told.
    pub fn link_places(&self) -> Vec<usize> {
        self.written().1.links
    }

    fn written(&self) -> (Vec<u8>, Places) {
        let mut places = Places::default();
        let mut file = MARK.to_vec();
        file.extend_from_slice(&self.version.field());
        file.extend_from_slice(&[0, 0]);
        put_aid(&mut file, &self.aid);
        for list in [&self.domains, &self.imports] {
            file.push(list.len() as u8);
            list.iter().for_each(|aid| put_aid(&mut file, aid));
        }
        put_u2(&mut file, self.references.len());
        for &(package, class, name) in &self.references {
            places.links.extend([file.len() + 1, file.len() + 3]);
            file.extend_from_slice(&[package, class]);
            put_u2(&mut file, name.into());
        }
        file.push(self.classes.len() as u8);
        for class in &self.classes {
            class.put(self.version, &mut file, &mut places);
        }
        set_size(&mut file);
        (file, places)
    }

    /// The structure of a file that reads as laid out, by the greatest limits.
    pub fn read(file: &[u8]) -> Option<Self> {
        let package = package::read(file, Limits::GREATEST)?;
        let owned = |list: &[&[u8]]| list.iter().map(|aid| aid.to_vec()).collect();
        let references = package.references.iter();
        Some(FileModel {
            version: package.version,
            aid: package.aid.to_vec(),
            domains: owned(&package.domains),
            imports: owned(&package.imports),
            references: references.map(|r| (r.package, r.class, r.name)).collect(),
            classes: package.classes.iter().map(ClassModel::of).collect(),
        })
    }
}

impl ClassModel {
    pub fn new(kind: u8, parents: &[(u8, u8)], methods: Vec<MethodModel>) -> Self {
        ClassModel {
            kind,
            parents: parents.to_vec(),
            methods,
        }
    }

    fn put(&self, version: Version, file: &mut Vec<u8>, places: &mut Places) {
        file.extend_from_slice(&[self.kind, self.parents.len() as u8]);
        for &(package, class) in &self.parents {
            places.links.push(file.len() + 1);
            file.extend_from_slice(&[package, class]);
        }
        file.push(self.methods.len() as u8);
        for method in &self.methods {
            places.links.push(file.len());
            places.policies.push(file.len() + MethodModel::POLICY);
            method.put(file);
            if version == Version::Second && method.bits & IMPLEMENTED != 0 {
                places.handlers.push(file.len());
                method.put_handlers(file);
            }
        }
    }

    fn of(class: &package::Class) -> Self {
        ClassModel {
            kind: u8::from(class.interface),
            parents: class.parents.clone(),
            methods: class.methods.iter().map(MethodModel::of).collect(),
        }
    }
}

impl MethodModel {
    /// Where the allowed count stands in a method's bytes.
    const POLICY: usize = 3;

    pub fn new(bits: u8, name: u16, allowed: Option<&[u8]>, code: &[u8]) -> Self {
        MethodModel {
            bits,
            name,
            allowed: allowed.map(<[u8]>::to_vec),
            code: code.to_vec(),
            handlers: Vec::new(),
        }
    }

    /// The same with these handlers.
    pub fn handled(self, handlers: &[Handler]) -> Self {
        MethodModel {
            handlers: handlers.to_vec(),
            ..self
        }
    }

    fn put_handlers(&self, file: &mut Vec<u8>) {
        file.push(self.handlers.len() as u8);
        let handlers = self.handlers.iter();
        handlers.for_each(|handler| file.extend_from_slice(&handler.bytes()));
    }

    fn put(&self, file: &mut Vec<u8>) {
        file.push(self.bits);
        put_u2(file, self.name.into());
        match &self.allowed {
            None => file.push(EVERY),
            Some(indexes) => {
                file.push(indexes.len() as u8);
                file.extend_from_slice(indexes);
            }
        }
        if self.bits & IMPLEMENTED != 0 {
            put_u2(file, self.code.len());
            file.extend_from_slice(&self.code);
        }
    }

    fn of(method: &package::Method) -> Self {
        let bit = |set: bool, bit: u8| if set { bit } else { 0 };
        MethodModel {
            bits: bit(method.visible, VISIBLE)
                | bit(method.is_static, STATIC)
                | bit(method.implemented(), IMPLEMENTED),
            name: method.name,
            allowed: match method.policy {
                Policy::Every => None,
                Policy::Listed(indexes) => Some(indexes.to_vec()),
            },
            code: method.code.unwrap_or(&[]).to_vec(),
            handlers: method.handlers.iter().collect(),
        }
    }
}

fn put_u2(file: &mut Vec<u8>, number: usize) {
    file.extend_from_slice(&(number as u16).to_be_bytes());
}

fn put_aid(file: &mut Vec<u8>, aid: &[u8]) {
    file.push(aid.len() as u8);
    file.extend_from_slice(aid);
}

/// Makes the size field say the file's length.
pub fn set_size(file: &mut [u8]) {
    if file.len() >= 7 {
        let size = (file.len() as u16).to_be_bytes();
        file[5..7].copy_from_slice(&size);
    }
}
