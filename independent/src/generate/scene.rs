//! What a generator knows about the store it builds files for.

use super::facts::{ClassFacts, MethodFacts, Policy};
use super::model::FileModel;
use crate::limits::Limits;
use crate::policy::Item;
use crate::store::StoreVersion;
use crate::without_int::DomainKind;
use std::collections::BTreeSet;

#[derive(Clone, Debug)]
pub struct PackageFacts {
    pub domain: Vec<u8>,
    pub model: FileModel,
    pub classes: Vec<ClassFacts>,
}

#[derive(Clone, Debug, Default)]
pub struct Scene {
    /// Created, of either kind.
    pub domains: Vec<Vec<u8>>,
    /// Those of them that are without int.
    pub without_int: BTreeSet<Vec<u8>>,
    pub packages: Vec<PackageFacts>,
    /// AIDs that files may list, created as domains or not.
    pub domain_pool: Vec<Vec<u8>>,
    pub package_pool: Vec<Vec<u8>>,
    /// Bytes after used.
    pub free: usize,
    pub version: StoreVersion,
}

impl Scene {
    pub fn limits(&self) -> Limits {
        self.version.limits()
    }

    pub fn package_named(&self, aid: &[u8]) -> Option<usize> {
        self.packages.iter().position(|p| p.model.aid == aid)
    }

    /// The kind of a domain, kind 1 if it is not created.
    pub fn kind(&self, domain: &[u8]) -> DomainKind {
        match self.without_int.contains(domain) {
            true => DomainKind::WithoutInt,
            false => DomainKind::WithInt,
        }
    }

    /// Adds a created domain.
    pub fn create(&mut self, kind: DomainKind, domain: &[u8]) {
        self.domains.push(domain.to_vec());
        if kind == DomainKind::WithoutInt {
            self.without_int.insert(domain.to_vec());
        }
    }

    /// Leaves a domain out.
    pub fn delete(&mut self, domain: &[u8]) {
        self.domains.retain(|created| created != domain);
        self.without_int.remove(domain);
    }

    /// Nothing is created or installed.
    pub fn empty(&mut self, version: StoreVersion) {
        self.version = version;
        self.domains.clear();
        self.without_int.clear();
        self.packages.clear();
    }

    /// Adds an accepted file.
    pub fn install(&mut self, domain: &[u8], file: &[u8]) {
        let Some(model) = FileModel::read(file) else {
            return;
        };
        let mut classes: Vec<ClassFacts> = Vec::new();
        for class in &model.classes {
            let parent_of = |&(package, number): &(u8, u8)| match package {
                0 => classes.get(usize::from(number)),
                k => {
                    let aid = model.imports.get(usize::from(k) - 1)?;
                    let holder = &self.packages[self.package_named(aid)?];
                    holder.classes.get(usize::from(number))
                }
            };
            let parents: Vec<&ClassFacts> = class.parents.iter().filter_map(parent_of).collect();
            let mut facts = ClassFacts::under(&model.aid, class.kind == 1, &parents);
            for method in &class.methods {
                facts.declare(MethodFacts {
                    bits: method.bits,
                    name: method.name,
                    policy: policy_of(&model, domain, &method.allowed),
                });
            }
            classes.push(facts);
        }
        let domain = domain.to_vec();
        self.packages.push(PackageFacts {
            domain,
            model,
            classes,
        });
    }
}

/// What a policy of this file, loaded in this domain, allows.
fn policy_of(model: &FileModel, domain: &[u8], allowed: &Option<Vec<u8>>) -> Policy {
    let aid = |&index: &u8| match Item::of(index) {
        Item::Aid(place) => model.domains[place].clone(),
        Item::Own => domain.to_vec(),
    };
    match allowed {
        None => Policy::Every,
        Some(indexes) => Policy::Only(indexes.iter().map(aid).collect()),
    }
}
