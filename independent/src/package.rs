//! The package file, parsed to structures.

use crate::bytes::Reader;
use crate::handlers::{HandlerReader, Handlers};
use crate::limits::Limits;
use crate::misreadings::Misreading;
use crate::policy::{Policy, PolicyReader};

/// The mark "BPK".
pub const MARK: [u8; 3] = [0x42, 0x50, 0x4B];

/// Mark and version.
pub const HEAD: usize = 5;

/// The version of a file; the second has handlers (request 7).
#[derive(Clone, Copy, Debug, Default, PartialEq, Eq)]
pub enum Version {
    #[default]
    First,
    Second,
}

impl Version {
    pub const BOTH: [Version; 2] = [Version::First, Version::Second];

    pub fn of(field: [u8; 2]) -> Option<Self> {
        match field {
            [0, 1] => Some(Version::First),
            [0, 2] => Some(Version::Second),
            _ => None,
        }
    }

    pub fn field(self) -> [u8; 2] {
        match self {
            Version::First => [0, 1],
            Version::Second => [0, 2],
        }
    }
}

pub const MAX_DOMAINS: usize = 32;
pub const MAX_IMPORTS: usize = 15;
pub const MAX_REFERENCES: usize = 1024;
pub const MAX_CLASSES: usize = 32;
pub const MAX_METHODS: usize = 64;

pub const VISIBLE: u8 = 0x80;
pub const IMPLEMENTED: u8 = 0x40;
pub const STATIC: u8 = 0x20;

#[derive(Clone, Debug)]
pub struct Package<'a> {
    pub version: Version,
    pub aid: &'a [u8],
    pub domains: Vec<&'a [u8]>,
    pub imports: Vec<&'a [u8]>,
    pub references: Vec<Reference>,
    pub classes: Vec<Class<'a>>,
}

/// Package 0 is this one, k the k-th import.
#[derive(Clone, Copy, Debug)]
pub struct Reference {
    pub package: u8,
    pub class: u8,
    pub name: u16,
}

#[derive(Clone, Debug)]
pub struct Class<'a> {
    pub interface: bool,
    /// Package and class numbers of each parent.
    pub parents: Vec<(u8, u8)>,
    pub methods: Vec<Method<'a>>,
}

#[derive(Clone, Debug)]
pub struct Method<'a> {
    pub visible: bool,
    pub is_static: bool,
    pub name: u16,
    pub policy: Policy<'a>,
    /// Present when the method is implemented.
    pub code: Option<&'a [u8]>,
    /// Of this code.
    pub handlers: Handlers<'a>,
}

impl Class<'_> {
    /// The number of the method of this name that the class itself declares.
    pub fn method_named(&self, name: u16) -> Option<usize> {
        self.methods.iter().position(|method| method.name == name)
    }
}

impl Method<'_> {
    pub fn implemented(&self) -> bool {
        self.code.is_some()
    }
}

/// The version of a file that begins with mark and version.
pub fn version(file: &[u8], misreading: Option<Misreading>) -> Option<Version> {
    let field = file.get(MARK.len()..HEAD)?.try_into().ok()?;
    let version = match misreading {
        None => Version::of(field),
        Some(wrong) => wrong.version(field),
    };
    version.filter(|_| file.starts_with(&MARK))
}

/// What the rest of a file is read by.
#[derive(Clone, Copy)]
pub struct Reading {
    pub version: Version,
    /// Those of the store.
    pub limits: Limits,
    pub misreading: Option<Misreading>,
}

/// Reads a file; `None` unless it has mark and version and reads exactly to its end.
pub fn read(file: &[u8], limits: Limits) -> Option<Package<'_>> {
    let reading = Reading {
        version: version(file, None)?,
        limits,
        misreading: None,
    };
    read_by(file, reading)
}

/// Reads the file after mark and version.
pub fn read_by(file: &[u8], reading: Reading) -> Option<Package<'_>> {
    let mut reader = Reader::new(file);
    reader.take(HEAD)?;
    if usize::from(reader.u2()?) != file.len() {
        return None;
    }
    let aid = reader.aid()?;
    let domains = read_aids(&mut reader, MAX_DOMAINS)?;
    let imports = read_aids(&mut reader, MAX_IMPORTS)?;
    let references = read_references(&mut reader)?;
    let class_count = reader.count1(MAX_CLASSES)?;
    let methods = MethodReader::new(reading, domains.len());
    let classes = (0..class_count)
        .map(|_| read_class(&mut reader, &methods))
        .collect::<Option<Vec<_>>>()?;
    reader.rest().is_empty().then_some(Package {
        version: reading.version,
        aid,
        domains,
        imports,
        references,
        classes,
    })
}

fn read_aids<'a>(reader: &mut Reader<'a>, limit: usize) -> Option<Vec<&'a [u8]>> {
    let count = reader.count1(limit)?;
    (0..count).map(|_| reader.aid()).collect()
}

fn read_references(reader: &mut Reader) -> Option<Vec<Reference>> {
    let count = usize::from(reader.u2()?);
    if count > MAX_REFERENCES {
        return None;
    }
    let fields = reader.take(4 * count)?.chunks_exact(4);
    let references = fields.map(|field| Reference {
        package: field[0],
        class: field[1],
        name: u16::from_be_bytes([field[2], field[3]]),
    });
    Some(references.collect())
}

/// What the methods of a file are read by.
struct MethodReader {
    limits: Limits,
    policies: PolicyReader,
    handlers: HandlerReader,
}

impl MethodReader {
    fn new(reading: Reading, domain_count: usize) -> Self {
        let Reading {
            version,
            limits,
            misreading,
        } = reading;
        MethodReader {
            limits,
            policies: PolicyReader {
                domain_count,
                misreading,
            },
            handlers: HandlerReader {
                version,
                misreading,
            },
        }
    }

    fn read<'a>(&self, reader: &mut Reader<'a>) -> Option<Method<'a>> {
        let bits = reader.u1()?;
        if bits & !(VISIBLE | IMPLEMENTED | STATIC) != 0 {
            return None;
        }
        let name = reader.u2()?;
        let policy = self.policies.read(reader)?;
        let code = if bits & IMPLEMENTED != 0 {
            Some(self.read_code(reader)?)
        } else {
            None
        };
        Some(Method {
            visible: bits & VISIBLE != 0,
            is_static: bits & STATIC != 0,
            name,
            policy,
            code,
            handlers: self.handlers.read(reader, code)?,
        })
    }

    fn read_code<'a>(&self, reader: &mut Reader<'a>) -> Option<&'a [u8]> {
        let length = reader.u2()?;
        match (1..=self.limits.code).contains(&length) {
            true => reader.take(length.into()),
            false => None,
        }
    }
}

fn read_class<'a>(reader: &mut Reader<'a>, methods: &MethodReader) -> Option<Class<'a>> {
    let kind = reader.count1(1)?;
    let parent_count = reader.count1(methods.limits.parents.into())?;
    let parents = reader.take(2 * parent_count)?.chunks_exact(2);
    let method_count = reader.count1(MAX_METHODS)?;
    Some(Class {
        interface: kind == 1,
        parents: parents.map(|pair| (pair[0], pair[1])).collect(),
        methods: (0..method_count)
            .map(|_| methods.read(reader))
            .collect::<Option<Vec<_>>>()?,
    })
}
