//! The search for the declaration that a reference means (request 3): the class named and its
//! kind-0 parents upwards; then the interfaces of each of these, an interface before its own
//! parents, in listed order. The first class that declares the name, in any form, ends it.

use crate::contents::{Contents, MethodPlace, Place};
use crate::package::Reference;

/// What a reference means.
#[derive(Clone, Copy, Debug, PartialEq, Eq)]
pub struct Meant {
    /// The class that the reference names; receivers are at or below it.
    pub named: Place,
    /// The declaration at which the search ends.
    pub declared: MethodPlace,
}

/// What the references of one package mean; each is looked for once at most.
pub struct Meanings<'c, 'a> {
    contents: &'c Contents<'a>,
    package: usize,
    /// For each reference, once it was looked for, what it means, if anything; empty before the
    /// first was.
    known: Vec<Option<Option<Meant>>>,
    /// For each interface that a search asked, the reference after which it was asked last:
    /// no search asks one twice.
    asked: Vec<usize>,
}

impl<'c, 'a> Meanings<'c, 'a> {
    pub fn new(contents: &'c Contents<'a>, package: usize) -> Self {
        Meanings {
            contents,
            package,
            known: Vec::new(),
            asked: Vec::new(),
        }
    }

    /// What the reference at this index means, if it exists and the search finds a declaration.
    pub fn of(&mut self, index: usize) -> Option<Meant> {
        let references = &self.contents.packages[self.package].package.references;
        let reference = *references.get(index)?;
        if self.known.is_empty() {
            self.known = vec![None; references.len()];
        }
        if let Some(known) = self.known[index] {
            return known;
        }
        let found = self.looked_for(index, reference);
        self.known[index] = Some(found);
        found
    }

    fn looked_for(&mut self, index: usize, reference: Reference) -> Option<Meant> {
        let Reference { package, class, .. } = reference;
        let named = self.contents.class_numbered(self.package, package, class)?;
        let declared = self.declaration(index, named, reference.name)?;
        Some(Meant { named, declared })
    }

    /// The declaration at which the search from a class ends; the index tells searches apart.
    pub fn declaration(&mut self, index: usize, named: Place, name: u16) -> Option<MethodPlace> {
        let contents = self.contents;
        if let Some(found) = contents
            .chain(named)
            .find_map(|c| contents.declared(c, name))
        {
            return Some(found);
        }
        contents
            .chain(named)
            .find_map(|class| self.above(index, class, name))
    }

    /// The search through the interfaces of a class, depth first.
    fn above(&mut self, index: usize, class: Place, name: u16) -> Option<MethodPlace> {
        let contents = self.contents;
        contents.interfaces(class).find_map(|interface| {
            if self.asked_before(index, interface) {
                return None;
            }
            let declared = contents.declared(interface, name);
            declared.or_else(|| self.above(index, interface, name))
        })
    }

    /// Has the search for this reference asked the interface? From now on it has.
    fn asked_before(&mut self, index: usize, interface: Place) -> bool {
        if self.asked.is_empty() {
            self.asked = vec![usize::MAX; self.contents.class_count()];
        }
        let last = &mut self.asked[self.contents.class_number(interface)];
        std::mem::replace(last, index) == index
    }
}
