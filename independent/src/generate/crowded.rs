//! Stores of many small packages, of many methods and of large files.

use super::files::sized_file;
use super::model::{ClassModel, FileModel, MethodModel};
use super::random::Random;
use super::without_int::some_kind;
use crate::bytes::AID_LENGTHS;
use crate::inventory::heading;
use crate::ledger::{Entry, Ledger};
use crate::limits::Limits;
use crate::package::{Version, MAX_CLASSES, MAX_METHODS};
use crate::store::{StoreVersion, ENTRY_HEAD};
use crate::without_int::DomainKind;

pub const LARGEST: usize = 65_535;

/// Both versions of stores, the second with the greatest limits.
pub const BOTH_VERSIONS: [StoreVersion; 2] =
    [StoreVersion::First, StoreVersion::Second(Limits::GREATEST)];

/// A store that is being filled.
struct Crowd {
    ledger: Ledger,
    domains: Vec<Vec<u8>>,
    length: usize,
    /// Bytes after used.
    free: usize,
}

impl Crowd {
    fn new(version: StoreVersion, length: usize) -> Self {
        let mut ledger = Ledger::new(length);
        ledger.version = version;
        Crowd {
            ledger,
            domains: Vec::new(),
            length,
            free: length - version.opening(),
        }
    }

    /// Adds an entry if it fits.
    fn put(&mut self, entry: Entry) -> bool {
        let bytes = match &entry {
            Entry::Domain(_, aid) => ENTRY_HEAD + aid.len(),
            Entry::Package { domain, file } => heading(domain) + file.len(),
        };
        let fits = bytes <= self.free;
        if fits {
            self.free -= bytes;
            self.ledger.entries.push(entry);
        }
        fits
    }

    fn create(&mut self, kind: DomainKind, aid: Vec<u8>) {
        if self.put(Entry::Domain(kind, aid.clone())) {
            self.domains.push(aid);
        }
    }

    /// Loads a file in one of the domains, by turns.
    fn load(&mut self, number: usize, model: &FileModel) -> bool {
        let domain = self.domains[number % self.domains.len()].clone();
        let file = model.bytes();
        self.put(Entry::Package { domain, file })
    }

    fn written(&self) -> Vec<u8> {
        self.ledger.written_out(self.length)
    }
}

/// An AID of this length; other numbers give others, in no order.
fn numbered(length: usize, number: usize) -> Vec<u8> {
    let mut aid = vec![0xAB; length - 2];
    aid.extend((number as u16).wrapping_mul(40_503).to_be_bytes());
    aid
}

/// A package without classes.
fn small(version: Version, aid: Vec<u8>) -> FileModel {
    FileModel {
        version,
        aid,
        ..FileModel::default()
    }
}

/// A package with so many methods: interfaces, then classes with codes of one byte by turns.
fn of_methods(version: Version, aid: Vec<u8>, methods: usize, with_codes: bool) -> FileModel {
    let class = |first: usize| {
        let coded = with_codes && (first / MAX_METHODS) % 2 == 1;
        let bits = if coded { 0xC0 } else { 0x80 };
        let names = first..methods.min(first + MAX_METHODS);
        let declared = names.map(|name| MethodModel::new(bits, name as u16, Some(&[]), &[0x7A]));
        ClassModel::new(u8::from(!coded), &[], declared.collect())
    };
    let starts = (0..methods).step_by(MAX_METHODS);
    FileModel {
        classes: starts.map(class).collect(),
        ..small(version, aid)
    }
}

/// The most methods of a file.
const MOST: usize = MAX_CLASSES * MAX_METHODS;

/// The largest stores: full of the smallest packages, of packages with the longest AIDs, of
/// as many methods as fit; of either version, with files of either version.
pub fn largest() -> Vec<Vec<u8>> {
    let mut found = Vec::new();
    for version in BOTH_VERSIONS {
        for file in Version::BOTH {
            let lengths = [*AID_LENGTHS.start(), *AID_LENGTHS.end()];
            found.extend(lengths.map(|length| full_of_packages(version, file, length)));
            found.push(full_of_methods(version, file));
        }
    }
    found
}

/// A store full of the smallest packages with AIDs of this length.
pub fn full_of_packages(version: StoreVersion, file: Version, length: usize) -> Vec<u8> {
    let mut crowd = Crowd::new(version, LARGEST);
    crowd.create(DomainKind::WithoutInt, vec![0xD0; length]);
    let make = |number| small(file, numbered(length, number));
    (0..).find(|&number| !crowd.load(number, &make(number)));
    crowd.written()
}

/// A store of as many methods as fit.
pub fn full_of_methods(version: StoreVersion, file: Version) -> Vec<u8> {
    let mut crowd = Crowd::new(version, LARGEST);
    crowd.create(DomainKind::WithInt, vec![0xD0; 5]);
    let mut methods = MOST;
    for number in 0.. {
        let make = |methods| of_methods(file, numbered(5, number), methods, false);
        while methods > 0 && !crowd.load(number, &make(methods)) {
            methods -= 1;
        }
        if methods == 0 {
            break;
        }
    }
    crowd.written()
}

/// A sound store of many packages, of many methods or of large files.
pub fn crowded(random: &mut Random) -> Vec<u8> {
    let fill: fn(&mut Random, &mut Crowd) =
        *random.pick(&[crowd_packages, crowd_packages, crowd_methods, large_files]);
    let length = match random.chance(10) {
        true => LARGEST,
        false => random.between(24_000, 44_000),
    };
    let mut crowd = Crowd::new(*random.pick(&BOTH_VERSIONS), length);
    for number in 0..random.between(1, 4) {
        let kind = some_kind(random, 50);
        crowd.create(kind, some_aid(random, number));
    }
    fill(random, &mut crowd);
    crowd.written()
}

fn some_aid(random: &mut Random, number: usize) -> Vec<u8> {
    let length = random.between(*AID_LENGTHS.start(), *AID_LENGTHS.end());
    numbered(length, number)
}

fn crowd_packages(random: &mut Random, crowd: &mut Crowd) {
    let count = match random.chance(50) {
        true => random.between(10, 99),
        false => random.between(100, 250),
    };
    for number in 0..count {
        let version = *random.pick(&Version::BOTH);
        crowd.load(number, &small(version, some_aid(random, number)));
    }
}

fn crowd_methods(random: &mut Random, crowd: &mut Crowd) {
    for number in 0..random.between(1, 3) {
        let version = *random.pick(&Version::BOTH);
        let methods = *random.pick(&[255, 256, 257, 999, 1_000, 1_024, MOST]);
        let aid = some_aid(random, number);
        crowd.load(
            number,
            &of_methods(version, aid, methods, random.chance(50)),
        );
    }
}

/// Files of lengths at which a digit is added, then one that fills the store to the byte.
fn large_files(random: &mut Random, crowd: &mut Crowd) {
    let most = crowd.ledger.version.limits().code.into();
    let sizes = [99, 100, 999, 1_000, 9_999, 10_000];
    for number in 0..=sizes.len() {
        let domain = &crowd.domains[number % crowd.domains.len()];
        let rest = crowd.free.saturating_sub(heading(domain));
        let size = *sizes.get(number).unwrap_or(&rest);
        let version = *random.pick(&Version::BOTH);
        if let Some(model) = sized_file(version, &some_aid(random, number), size, most) {
            crowd.load(number, &model);
        }
    }
}
