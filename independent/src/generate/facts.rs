//! What a generator knows about classes: what their methods allow, what runs, and which
//! declaration a name means.

use crate::package::{IMPLEMENTED, STATIC};
use std::collections::{BTreeMap, BTreeSet};

/// The domains that a method allows.
#[derive(Clone, Debug, PartialEq, Eq)]
pub enum Policy {
    Every,
    Only(BTreeSet<Vec<u8>>),
}

impl Policy {
    pub fn nobody() -> Self {
        Policy::Only(BTreeSet::new())
    }

    pub fn covers(&self, other: &Policy) -> bool {
        match (self, other) {
            (Policy::Every, _) => true,
            (Policy::Only(_), Policy::Every) => false,
            (Policy::Only(have), Policy::Only(need)) => need.is_subset(have),
        }
    }

    pub fn allows(&self, domain: &[u8]) -> bool {
        match self {
            Policy::Every => true,
            Policy::Only(have) => have.contains(domain),
        }
    }

    /// Adds what the other allows.
    pub fn join(&mut self, other: &Policy) {
        match (&mut *self, other) {
            (Policy::Only(have), Policy::Only(more)) => have.extend(more.iter().cloned()),
            _ => *self = Policy::Every,
        }
    }
}

#[derive(Clone, Debug)]
pub struct MethodFacts {
    pub bits: u8,
    pub name: u16,
    pub policy: Policy,
}

/// The declaration that a name means where a class is named.
#[derive(Clone, Debug)]
pub struct Declared {
    /// The AID of the package that has it.
    pub home: Vec<u8>,
    /// Is it an interface's?
    pub interface: bool,
    pub bits: u8,
    pub policy: Policy,
}

#[derive(Clone, Debug)]
pub struct ClassFacts {
    /// The AID of its package.
    pub home: Vec<u8>,
    pub interface: bool,
    pub depth: u8,
    pub methods: Vec<MethodFacts>,
    /// For each name, the first declaration in the class and its kind-0 parents upwards.
    chain: BTreeMap<u16, Declared>,
    /// For each name, the first declaration in the interfaces of these.
    above: BTreeMap<u16, Declared>,
    /// For each name, what non-static methods of the class and its ancestors allow.
    pub needs: BTreeMap<u16, Policy>,
    /// For each name, what the method that runs allows, or that none runs.
    pub runs: BTreeMap<u16, Option<Policy>>,
}

impl ClassFacts {
    /// A class without methods yet, of the package with this AID.
    pub fn under(home: &[u8], interface: bool, parents: &[&ClassFacts]) -> Self {
        let mut needs: BTreeMap<u16, Policy> = BTreeMap::new();
        let mut runs = BTreeMap::new();
        let mut above = BTreeMap::new();
        for (&name, declared) in parents
            .iter()
            .filter(|p| p.interface)
            .flat_map(|p| p.meanings())
        {
            above.entry(name).or_insert_with(|| declared.clone());
        }
        let mut chain = BTreeMap::new();
        if let Some(parent) = parents.iter().find(|p| !p.interface) {
            chain.clone_from(&parent.chain);
            for (&name, declared) in &parent.above {
                above.entry(name).or_insert_with(|| declared.clone());
            }
        }
        for parent in parents {
            for (&name, policy) in &parent.needs {
                needs
                    .entry(name)
                    .or_insert_with(Policy::nobody)
                    .join(policy);
            }
            if !parent.interface {
                runs = parent.runs.clone();
            }
        }
        let deepest = parents.iter().map(|p| p.depth).max().unwrap_or(0);
        ClassFacts {
            home: home.to_vec(),
            interface,
            depth: deepest + 1,
            methods: Vec::new(),
            chain,
            above,
            needs,
            runs,
        }
    }

    /// Each name that a call may give with this class, and the declaration that it means.
    pub fn meanings(&self) -> impl Iterator<Item = (&u16, &Declared)> {
        let above = self.above.iter();
        let above = above.filter(|(name, _)| !self.chain.contains_key(name));
        self.chain.iter().chain(above)
    }

    /// The declaration that a name means.
    pub fn meant(&self, name: u16) -> Option<&Declared> {
        self.chain.get(&name).or_else(|| self.above.get(&name))
    }

    /// Names whose running method does not allow all that it must.
    pub fn falling_short(&self) -> Vec<u16> {
        let short = |(name, need): (&u16, &Policy)| match self.runs.get(name) {
            Some(Some(runs)) if !runs.covers(need) => Some(*name),
            _ => None,
        };
        self.needs.iter().filter_map(short).collect()
    }

    pub fn declare(&mut self, method: MethodFacts) {
        let declared = Declared {
            home: self.home.clone(),
            interface: self.interface,
            bits: method.bits,
            policy: method.policy.clone(),
        };
        self.chain.insert(method.name, declared);
        if method.bits & STATIC == 0 {
            self.needs
                .entry(method.name)
                .or_insert_with(Policy::nobody)
                .join(&method.policy);
            let implemented = method.bits & IMPLEMENTED != 0;
            if !self.interface {
                let runs = implemented.then(|| method.policy.clone());
                self.runs.insert(method.name, runs);
            }
        }
        self.methods.push(method);
    }
}
