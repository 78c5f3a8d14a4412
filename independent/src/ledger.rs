//! The ledger: a list of entries, fed the buffer's length and the calls.

use crate::limits::Limits;
use crate::operations::asked;
use crate::store::StoreVersion;
use crate::without_int::DomainKind;
use crate::Answer;

/// A call and its arguments other than the buffer.
#[derive(Clone, Debug, PartialEq, Eq)]
pub enum Call {
    Fresh,
    FreshLimits(Limits),
    Create(Vec<u8>),
    CreateWithoutInt(Vec<u8>),
    Delete(Vec<u8>),
    Load {
        domain: Vec<u8>,
        file: Vec<u8>,
    },
    Remove(Vec<u8>),
    Query {
        domain: Vec<u8>,
        package: Vec<u8>,
        class: u8,
        name: u16,
    },
}

impl Call {
    /// The names of the operations, as those of the C functions end.
    pub const OPERATIONS: [&'static str; 8] = [
        "fresh",
        "fresh_limits",
        "create",
        "create_without_int",
        "delete",
        "load",
        "remove",
        "query",
    ];

    /// The places of load and query among them.
    pub const LOAD: usize = 5;
    pub const QUERY: usize = 7;

    /// The place of the call's operation among them.
    pub fn operation(&self) -> usize {
        match self {
            Call::Fresh => 0,
            Call::FreshLimits(_) => 1,
            Call::Create(_) => 2,
            Call::CreateWithoutInt(_) => 3,
            Call::Delete(_) => 4,
            Call::Load { .. } => Call::LOAD,
            Call::Remove(_) => 6,
            Call::Query { .. } => Call::QUERY,
        }
    }

    /// A creation of a domain of this kind.
    pub fn create(kind: DomainKind, domain: &[u8]) -> Self {
        match kind {
            DomainKind::WithInt => Call::Create(domain.to_vec()),
            DomainKind::WithoutInt => Call::CreateWithoutInt(domain.to_vec()),
        }
    }
}

#[derive(Clone, Debug, PartialEq, Eq)]
pub enum Entry {
    /// Kind 1 or 3, and the AID.
    Domain(DomainKind, Vec<u8>),
    /// Kind 2.
    Package { domain: Vec<u8>, file: Vec<u8> },
}

impl Entry {
    /// A domain's entry of kind 1.
    pub fn domain(aid: &[u8]) -> Self {
        Entry::Domain(DomainKind::WithInt, aid.to_vec())
    }

    fn kind(&self) -> u8 {
        match self {
            Entry::Domain(DomainKind::WithInt, _) => 1,
            Entry::Package { .. } => 2,
            Entry::Domain(DomainKind::WithoutInt, _) => 3,
        }
    }

    fn body(&self) -> Vec<u8> {
        match self {
            Entry::Domain(_, aid) => aid.clone(),
            Entry::Package { domain, file } => {
                let mut body = vec![domain.len() as u8];
                body.extend_from_slice(domain);
                body.extend_from_slice(file);
                body
            }
        }
    }

    fn is_domain(&self, aid: &[u8]) -> bool {
        matches!(self, Entry::Domain(_, own) if own == aid)
    }

    fn is_package(&self, aid: &[u8]) -> bool {
        match self {
            Entry::Domain(..) => false,
            Entry::Package { file, .. } => package_aid(file) == Some(aid),
        }
    }
}

/// The package AID of a file: it follows mark, version and size.
fn package_aid(file: &[u8]) -> Option<&[u8]> {
    let length = usize::from(*file.get(7)?);
    file.get(8..8 + length)
}

#[derive(Clone, Debug)]
pub struct Ledger {
    length: usize,
    /// That in which it is written out: of the fresh call done last.
    pub version: StoreVersion,
    pub entries: Vec<Entry>,
}

impl Ledger {
    /// An empty list for a buffer of this length.
    pub fn new(length: usize) -> Self {
        Ledger {
            length,
            version: StoreVersion::First,
            entries: Vec::new(),
        }
    }

    /// The buffer of n bytes that the store's layout gives for these entries.
    pub fn written_out(&self, n: usize) -> Vec<u8> {
        let mut entries = Vec::new();
        for entry in &self.entries {
            let body = entry.body();
            entries.push(entry.kind());
            entries.extend_from_slice(&(body.len() as u16).to_be_bytes());
            entries.extend_from_slice(&body);
        }
        let mut buffer = self.version.opened(entries.len());
        buffer.extend_from_slice(&entries);
        buffer.resize(n, 0);
        buffer
    }

    /// Asks a call's questions of the ledger as written out; with all yes, changes the list.
    pub fn call(&mut self, call: &Call) -> Answer {
        let store = self.written_out(self.length);
        let judged = match call {
            Call::Fresh => asked::fresh(&store).map(|()| 0),
            Call::FreshLimits(limits) => asked::fresh_limits(&store, *limits).map(|()| 0),
            Call::Create(domain) => asked::create(&store, DomainKind::WithInt, domain).map(|()| 0),
            Call::CreateWithoutInt(domain) => {
                asked::create(&store, DomainKind::WithoutInt, domain).map(|()| 0)
            }
            Call::Delete(domain) => asked::delete(&store, domain).map(|_| 0),
            Call::Load { domain, file } => asked::load(&store, domain, file),
            Call::Remove(package) => asked::remove(&store, package).map(|_| 0),
            Call::Query {
                domain,
                package,
                class,
                name,
            } => asked::query(&store, domain, package, *class, *name).map(u8::from),
        };
        if judged.is_ok() {
            self.change(call);
        }
        Answer::of(judged)
    }

    fn empty(&mut self, version: StoreVersion) {
        self.version = version;
        self.entries.clear();
    }

    fn enter(&mut self, kind: DomainKind, domain: &[u8]) {
        self.entries.push(Entry::Domain(kind, domain.to_vec()));
    }

    fn change(&mut self, call: &Call) {
        match call {
            Call::Fresh => self.empty(StoreVersion::First),
            Call::FreshLimits(limits) => self.empty(StoreVersion::Second(*limits)),
            Call::Create(domain) => self.enter(DomainKind::WithInt, domain),
            Call::CreateWithoutInt(domain) => self.enter(DomainKind::WithoutInt, domain),
            Call::Delete(domain) => self.entries.retain(|e| !e.is_domain(domain)),
            Call::Load { domain, file } => self.entries.push(Entry::Package {
                domain: domain.clone(),
                file: file.clone(),
            }),
            Call::Remove(package) => self.entries.retain(|e| !e.is_package(package)),
            Call::Query { .. } => {}
        }
    }
}
