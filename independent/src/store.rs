//! The store's layout.

use crate::bytes::Reader;
use crate::limits::Limits;
use crate::misreadings::Misreading;
use crate::without_int::DomainKind;
use std::ops::Range;

/// The mark "BCS".
pub const MARK: [u8; 3] = [0x42, 0x43, 0x53];

/// Mark, version and used.
pub const HEAD: usize = 7;

/// The version of a store; the second has limits after used (request 12).
#[derive(Clone, Copy, Debug, Default, PartialEq, Eq)]
pub enum StoreVersion {
    #[default]
    First,
    Second(Limits),
}

impl StoreVersion {
    /// The version of bytes that begin as a store does, its limits in their ranges.
    pub fn of(store: &[u8]) -> Option<Self> {
        let (field, limits) = fields(store)?;
        match field {
            [0, 1] => Some(StoreVersion::First),
            [0, 2] => Some(StoreVersion::Second(limits)).filter(|_| limits.in_range()),
            _ => None,
        }
    }

    fn field(self) -> [u8; 2] {
        match self {
            StoreVersion::First => [0, 1],
            StoreVersion::Second(_) => [0, 2],
        }
    }

    /// How many bytes stand before the entries.
    pub fn opening(self) -> usize {
        match self {
            StoreVersion::First => HEAD,
            StoreVersion::Second(_) => HEAD + Limits::BYTES,
        }
    }

    pub fn limits(self) -> Limits {
        match self {
            StoreVersion::First => Limits::STANDARD,
            StoreVersion::Second(limits) => limits,
        }
    }

    /// The opening bytes of a store with so many bytes of entries.
    pub fn opened(self, entries: usize) -> Vec<u8> {
        let used = (self.opening() + entries) as u16;
        let mut bytes = [&MARK[..], &self.field(), &used.to_be_bytes()].concat();
        if let StoreVersion::Second(limits) = self {
            bytes.extend_from_slice(&limits.bytes());
        }
        bytes
    }
}

/// The version field and what stands in the place of limits, after the mark.
pub fn fields(store: &[u8]) -> Option<([u8; 2], Limits)> {
    let rest = store.strip_prefix(&MARK)?;
    let field = rest.get(..2)?.try_into().ok()?;
    let limits = store.get(HEAD..)?.get(..Limits::BYTES)?.try_into().ok()?;
    Some((field, Limits::read(limits)))
}

/// Kind and body length.
pub const ENTRY_HEAD: usize = 3;

/// The entry kind of a package; `DomainKind` has those of domains.
const PACKAGE: u8 = 2;

#[derive(Clone, Debug)]
pub struct Entry<'a> {
    /// The entry's bytes in the store, kind and length included.
    pub bytes: Range<usize>,
    pub body: Body<'a>,
}

#[derive(Clone, Copy, Debug)]
pub enum Body<'a> {
    Domain(DomainKind, &'a [u8]),
    Package { domain: &'a [u8], file: &'a [u8] },
}

/// The used field; the store has at least seven bytes.
pub fn used(store: &[u8]) -> usize {
    usize::from(u16::from_be_bytes([store[5], store[6]]))
}

/// A store's version, and its entries in order.
pub struct Layout<'a> {
    pub version: StoreVersion,
    pub entries: Vec<Entry<'a>>,
}

/// Where entries begin, and the least that used may be.
pub struct Begin {
    pub entries: usize,
    pub used: usize,
}

/// The layout, if it holds.
pub fn layout(store: &[u8]) -> Option<Layout<'_>> {
    layout_by(store, None)
}

/// The same by a misreading.
pub fn layout_by(store: &[u8], misreading: Option<Misreading>) -> Option<Layout<'_>> {
    let version = match misreading {
        None => StoreVersion::of(store)?,
        Some(wrong) => wrong.store_version(store)?,
    };
    let begin = match misreading {
        None => Begin {
            entries: version.opening(),
            used: version.opening(),
        },
        Some(wrong) => wrong.begin(version),
    };
    let used = used(store);
    let end = used.max(begin.entries);
    if used < begin.used || end > store.len() || !all_zero(&store[end..]) {
        return None;
    }
    let entries = entries(store, begin.entries..end, misreading)?;
    Some(Layout { version, entries })
}

fn entries(
    store: &[u8],
    place: Range<usize>,
    misreading: Option<Misreading>,
) -> Option<Vec<Entry<'_>>> {
    let end = place.end;
    let mut reader = Reader::new(&store[place]);
    let mut found = Vec::new();
    while !reader.rest().is_empty() {
        let start = end - reader.rest().len();
        let kind = reader.u1()?;
        let length = usize::from(reader.u2()?);
        let domain = match misreading {
            None => DomainKind::of(kind),
            Some(wrong) => wrong.domain_kind(kind),
        };
        let bytes = reader.take(length)?;
        let body = match domain {
            Some(kind) => Body::Domain(kind, bytes),
            None if kind == PACKAGE => read_package(bytes)?,
            None => return None,
        };
        let bytes = start..end - reader.rest().len();
        found.push(Entry { bytes, body });
    }
    Some(found)
}

fn all_zero(bytes: &[u8]) -> bool {
    bytes.iter().fold(0, |all, byte| all | byte) == 0
}

fn read_package(body: &[u8]) -> Option<Body<'_>> {
    let mut reader = Reader::new(body);
    let length = usize::from(reader.u1()?);
    let domain = reader.take(length)?;
    let file = reader.rest();
    Some(Body::Package { domain, file })
}

/// The bytes of a body.
fn body_parts<'a>(body: &Body<'a>, length: &'a [u8; 1]) -> [&'a [u8]; 3] {
    match *body {
        Body::Domain(_, aid) => [aid, &[], &[]],
        Body::Package { domain, file } => [length, domain, file],
    }
}

/// How many bytes an entry with this body takes.
pub fn entry_length(body: &Body) -> usize {
    match body {
        Body::Domain(_, aid) => ENTRY_HEAD + aid.len(),
        Body::Package { domain, file } => ENTRY_HEAD + 1 + domain.len() + file.len(),
    }
}

/// Writes an empty store over every byte.
pub fn write_empty(store: &mut [u8], version: StoreVersion) {
    store.fill(0);
    store[..version.opening()].copy_from_slice(&version.opened(0));
}

fn write_used(store: &mut [u8], used: usize) {
    store[5] = (used >> 8) as u8;
    store[6] = used as u8;
}

/// Puts an entry after the others; it fits.
pub fn append(store: &mut [u8], body: &Body) {
    let start = used(store);
    let end = start + entry_length(body);
    let length = end - start - ENTRY_HEAD;
    let kind = match body {
        Body::Domain(kind, _) => kind.entry_kind(),
        Body::Package { .. } => PACKAGE,
    };
    store[start] = kind;
    store[start + 1] = (length >> 8) as u8;
    store[start + 2] = length as u8;
    let mut at = start + ENTRY_HEAD;
    let aid_length = match body {
        Body::Domain(_, aid) => [aid.len() as u8],
        Body::Package { domain, .. } => [domain.len() as u8],
    };
    for part in body_parts(body, &aid_length) {
        store[at..at + part.len()].copy_from_slice(part);
        at += part.len();
    }
    write_used(store, end);
}

/// Cuts an entry out, moves the later ones up and zeroes the freed end.
pub fn cut(store: &mut [u8], entry: Range<usize>) {
    let old = used(store);
    let new = old - entry.len();
    store.copy_within(entry.end..old, entry.start);
    store[new..old].fill(0);
    write_used(store, new);
}
