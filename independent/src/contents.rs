//! What a store holds, read once: its domains, its packages and their classes.

use crate::limits::Limits;
use crate::misreadings::Misreading;
use crate::package::{Class, Method, Package};
use crate::policy::{Role, Standing};
use crate::without_int::DomainKind;
use std::collections::HashMap;
use std::ops::Range;

/// A class of an installed package, or of the package being judged.
#[derive(Clone, Copy, Debug, PartialEq, Eq)]
pub struct Place {
    pub package: usize,
    pub class: usize,
}

/// A method of the class at a place.
#[derive(Clone, Copy, Debug, PartialEq, Eq)]
pub struct MethodPlace {
    pub class: Place,
    pub method: usize,
}

/// A class's parents, and its depth.
#[derive(Clone, Debug)]
pub struct Lineage {
    pub parents: Vec<Place>,
    pub depth: u8,
}

pub struct Installed<'a> {
    pub domain: &'a [u8],
    /// The bytes of its entry in the store.
    pub entry: Range<usize>,
    pub package: Package<'a>,
    /// For each import, the number of that installed package.
    pub imports: Vec<usize>,
    /// One for each class.
    pub lineages: Vec<Lineage>,
    /// The numbers of the file's domains and of the entry's: equal AIDs share one.
    domain_numbers: Vec<usize>,
    own_number: usize,
    /// How many classes the earlier packages have.
    classes_before: usize,
}

/// A created domain.
pub struct Domain {
    pub kind: DomainKind,
    /// The bytes of its entry in the store.
    pub entry: Range<usize>,
}

#[derive(Default)]
pub struct Contents<'a> {
    /// Of both kinds, by their AIDs.
    pub domains: HashMap<&'a [u8], Domain>,
    pub packages: Vec<Installed<'a>>,
    package_numbers: HashMap<&'a [u8], usize>,
    domain_numbers: HashMap<&'a [u8], usize>,
    /// Those of the store.
    pub limits: Limits,
    /// How a load is misread, if it is.
    pub misreading: Option<Misreading>,
}

impl<'a> Contents<'a> {
    /// Nothing yet.
    pub fn by(limits: Limits, misreading: Option<Misreading>) -> Self {
        Contents {
            limits,
            misreading,
            ..Contents::default()
        }
    }

    /// Puts a package after the others; its imports and lineages have been found.
    pub fn add(
        &mut self,
        domain: &'a [u8],
        entry: Range<usize>,
        package: Package<'a>,
        imports: Vec<usize>,
        lineages: Vec<Lineage>,
    ) {
        let own_number = self.number_domain(domain);
        let listed = package.domains.iter();
        let domain_numbers = listed.map(|&aid| self.number_domain(aid)).collect();
        self.package_numbers
            .insert(package.aid, self.packages.len());
        let classes_before = self.class_count();
        self.packages.push(Installed {
            domain,
            entry,
            package,
            imports,
            lineages,
            domain_numbers,
            own_number,
            classes_before,
        });
    }

    /// The kind of the domain that an installed package lies in.
    pub fn kind_of(&self, package: usize) -> DomainKind {
        self.domains[self.packages[package].domain].kind
    }

    /// The number of a domain that a file lists or that an entry has.
    fn number_domain(&mut self, aid: &'a [u8]) -> usize {
        let next = self.domain_numbers.len();
        *self.domain_numbers.entry(aid).or_insert(next)
    }

    /// How many classes the packages have.
    pub fn class_count(&self) -> usize {
        self.packages
            .last()
            .map_or(0, |last| last.classes_before + last.package.classes.len())
    }

    /// The number of the installed package with this AID.
    pub fn package_number(&self, aid: &[u8]) -> Option<usize> {
        self.package_numbers.get(aid).copied()
    }

    pub fn package_named(&self, aid: &[u8]) -> Option<&Installed<'a>> {
        Some(&self.packages[self.package_number(aid)?])
    }

    pub fn class(&self, place: Place) -> &Class<'a> {
        &self.packages[place.package].package.classes[place.class]
    }

    pub fn method(&self, place: MethodPlace) -> &Method<'a> {
        &self.class(place.class).methods[place.method]
    }

    pub fn lineage(&self, place: Place) -> &Lineage {
        &self.packages[place.package].lineages[place.class]
    }

    /// The number of a class among those of all packages.
    pub fn class_number(&self, place: Place) -> usize {
        self.packages[place.package].classes_before + place.class
    }

    /// The method of this name that the class itself declares.
    pub fn declared(&self, class: Place, name: u16) -> Option<MethodPlace> {
        let method = self.class(class).method_named(name)?;
        Some(MethodPlace { class, method })
    }

    /// The class that package and class numbers in an installed file stand for.
    pub fn class_numbered(&self, from: usize, package: u8, class: u8) -> Option<Place> {
        let package = match package {
            0 => from,
            k => *self.packages[from].imports.get(usize::from(k) - 1)?,
        };
        let class = usize::from(class);
        let exists = class < self.packages[package].package.classes.len();
        exists.then_some(Place { package, class })
    }

    /// The class and its ancestors, each once.
    pub fn with_ancestors(&self, place: Place) -> Vec<Place> {
        let mut seen = vec![false; self.class_count()];
        let mut found = vec![place];
        let mut next = 0;
        while let Some(&class) = found.get(next) {
            next += 1;
            for &parent in &self.lineage(class).parents {
                let number = self.class_number(parent);
                if !seen[number] {
                    seen[number] = true;
                    found.push(parent);
                }
            }
        }
        found
    }

    /// The kind-0 parent of a class.
    fn class_parent(&self, place: Place) -> Option<Place> {
        let parents = &self.lineage(place).parents;
        parents.iter().copied().find(|&p| !self.class(p).interface)
    }

    /// The class and its kind-0 parents upwards.
    pub fn chain(&self, class: Place) -> impl Iterator<Item = Place> + '_ {
        std::iter::successors(Some(class), |&below| self.class_parent(below))
    }

    /// The interfaces among a class's parents, in listed order.
    pub fn interfaces(&self, class: Place) -> impl Iterator<Item = Place> + '_ {
        let parents = self.lineage(class).parents.iter().copied();
        parents.filter(|&parent| self.class(parent).interface)
    }

    /// For a kind-0 class and each name that it or a kind-0 ancestor declares
    /// non-static, sorted by name: the method that runs, or none.
    pub fn running(&self, class: Place) -> Vec<(u16, Option<MethodPlace>)> {
        let mut found = Vec::new();
        for class in self.chain(class) {
            for (number, method) in self.class(class).methods.iter().enumerate() {
                if !method.is_static {
                    let place = MethodPlace {
                        class,
                        method: number,
                    };
                    found.push((method.name, method.implemented().then_some(place)));
                }
            }
        }
        // The sort keeps the order of equal names, so the first declared stays.
        found.sort_by_key(|&(name, _)| name);
        found.dedup_by_key(|&mut (name, _)| name);
        found
    }

    /// What a method allows where it stands, with its entry's domain.
    #[inline]
    pub fn standing(&self, place: MethodPlace, role: Role) -> Standing<'_> {
        let holder = &self.packages[place.class.package];
        let right = Standing {
            policy: self.method(place).policy,
            listed: &holder.domain_numbers,
            own: Some(holder.own_number),
        };
        match self.misreading {
            None => right,
            Some(wrong) => {
                let last = self.packages.len() - 1;
                wrong.standing(right, role, self.packages[last].own_number)
            }
        }
    }

    /// The number of a domain, if a file lists it or an entry has it.
    pub fn domain_number(&self, domain: &[u8]) -> Option<usize> {
        self.domain_numbers.get(domain).copied()
    }

    /// Does a method allow this domain?
    pub fn allows(&self, place: MethodPlace, role: Role, domain: &[u8]) -> bool {
        let number = self.domain_number(domain);
        self.standing(place, role).allows(number)
    }

    /// Question 19 for one call, the loading domain apart: does the declaration that it means
    /// allow all that the caller allows?
    pub fn called_allows(&self, declared: MethodPlace, caller: MethodPlace) -> bool {
        let caller = self.standing(caller, Role::Caller);
        self.standing(declared, Role::Called).allows_all(&caller)
    }

    /// Question 20 for one method of a class or its ancestors: does the method that runs
    /// allow all that it allows?
    pub fn runs_allows(&self, runs: MethodPlace, asked: MethodPlace) -> bool {
        let asked = self.standing(asked, Role::Ancestor);
        self.standing(runs, Role::Runs).allows_all(&asked)
    }
}
