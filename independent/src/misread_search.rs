//! Wrong readings of the search for declarations (request 3).

use crate::code::CallKind;
use crate::contents::{Contents, Place};
use crate::load_questions::{self, Call};
use crate::misreadings::Misreading;
use crate::search::Meant;
use std::collections::VecDeque;

#[derive(Clone, Copy, Debug, PartialEq, Eq)]
pub enum SearchMisreading {
    /// The class named must declare the name itself.
    NamedAlone,
    /// Interfaces are not asked.
    ChainAlone,
    /// Interfaces of the class named are asked, those of its kind-0 parents are not.
    NamedInterfaces,
    /// Parents of interfaces are not asked.
    OneLevel,
    /// The interfaces of a class are asked before its kind-0 parent.
    MemberByMember,
    /// The interfaces of the highest kind-0 parent are asked first.
    HighestFirst,
    /// Interfaces are asked level by level.
    BreadthFirst,
    /// An interface is asked after its own parents.
    ParentsBefore,
    /// Parents are asked from the last listed on.
    LastListed,

    /// 8B and 8E pass over a static declaration.
    PassesStatic,
    /// 8C passes over a declaration without code.
    PassesBare,
    /// A declaration outside the file that is not visible is passed over.
    PassesHidden,
    /// Every declaration that is not as the call asks is passed over.
    UntilFit,

    /// Visibility is asked where the class named is imported.
    VisibleByName,
    /// A declaration in a package that the file does not import itself is none.
    ImportedAlone,
    /// 8B asks for a declaration in a class of kind 0, as before this request.
    DeclaredVirtual,
    /// 8B does not look at kinds.
    AnyVirtual,
    /// 8E asks that the class named is an interface.
    NamedInterface,
    /// 8E does not look at kinds.
    AnyInterface,

    /// 19 is not asked of a declaration outside the class named.
    Unasked19,
}

use SearchMisreading::*;

impl SearchMisreading {
    pub const ALL: [SearchMisreading; 20] = [
        NamedAlone,
        ChainAlone,
        NamedInterfaces,
        OneLevel,
        MemberByMember,
        HighestFirst,
        BreadthFirst,
        ParentsBefore,
        LastListed,
        PassesStatic,
        PassesBare,
        PassesHidden,
        UntilFit,
        VisibleByName,
        ImportedAlone,
        DeclaredVirtual,
        AnyVirtual,
        NamedInterface,
        AnyInterface,
        Unasked19,
    ];

    /// What a call is taken to mean, if it is taken for one that may be.
    pub fn meant(
        self,
        contents: &Contents,
        judged: usize,
        kind: CallKind,
        index: usize,
    ) -> Option<Meant> {
        let package = &contents.packages[judged].package;
        let reference = package.references.get(index)?;
        let named = contents.class_numbered(judged, reference.package, reference.class)?;
        let declared = self.order(contents, named).into_iter();
        let mut declared = declared.filter_map(|class| contents.declared(class, reference.name));
        let meant = |declared| Meant { named, declared };
        let found = declared.find(|&d| !self.passes(contents, judged, kind, &meant(d)))?;
        Some(meant(found)).filter(|meant| self.fits(contents, judged, kind, meant))
    }

    /// The classes in the order in which they are asked, each once.
    pub fn order(self, contents: &Contents, named: Place) -> Vec<Place> {
        let chain: Vec<Place> = contents.chain(named).collect();
        let mut order = Order {
            wrong: self,
            contents,
            found: Vec::new(),
        };
        match self {
            NamedAlone => order.found.push(named),
            ChainAlone => order.found = chain,
            NamedInterfaces => {
                order.found = chain;
                order.above(named);
            }
            MemberByMember => chain.iter().for_each(|&class| {
                order.found.push(class);
                order.above(class);
            }),
            HighestFirst => {
                order.found.clone_from(&chain);
                chain.iter().rev().for_each(|&class| order.above(class));
            }
            _ => {
                order.found.clone_from(&chain);
                chain.iter().for_each(|&class| order.above(class));
            }
        }
        order.found
    }

    /// Is a declaration passed over?
    fn passes(self, contents: &Contents, judged: usize, kind: CallKind, meant: &Meant) -> bool {
        let method = contents.method(meant.declared);
        let outside = meant.declared.class.package != judged;
        match self {
            PassesStatic => {
                method.is_static && matches!(kind, CallKind::Virtual | CallKind::Interface)
            }
            PassesBare => kind == CallKind::Special && !method.implemented(),
            PassesHidden => outside && !method.visible,
            UntilFit => !load_questions::fits(contents, judged, kind, meant),
            _ => false,
        }
    }

    /// Is the declaration at which the search ends taken for one that the call may mean?
    fn fits(self, contents: &Contents, judged: usize, kind: CallKind, meant: &Meant) -> bool {
        let right = load_questions::fits(contents, judged, kind, meant);
        let method = contents.method(meant.declared);
        let home = meant.declared.class.package;
        let interface = |class: Place| contents.class(class).interface;
        let visible = home == judged || method.visible;
        match (self, kind) {
            (VisibleByName, _) => {
                let seen = meant.named.package == judged || method.visible;
                seen && load_questions::formed(contents, kind, meant)
            }
            (ImportedAlone, _) => {
                let imports = &contents.packages[judged].imports;
                right && (home == judged || imports.contains(&home))
            }
            (DeclaredVirtual, CallKind::Virtual) => right && !interface(meant.declared.class),
            (NamedInterface, CallKind::Interface) => right && interface(meant.named),
            (AnyVirtual, CallKind::Virtual) | (AnyInterface, CallKind::Interface) => {
                visible && !method.is_static
            }
            _ => right,
        }
    }
}

/// Classes in the order in which a reading asks them.
struct Order<'c, 'a> {
    wrong: SearchMisreading,
    contents: &'c Contents<'a>,
    found: Vec<Place>,
}

impl Order<'_, '_> {
    /// Adds the interfaces of a class.
    fn above(&mut self, class: Place) {
        if self.wrong == BreadthFirst {
            return self.level_by_level(class);
        }
        let mut interfaces: Vec<Place> = self.contents.interfaces(class).collect();
        if self.wrong == LastListed {
            interfaces.reverse();
        }
        for interface in interfaces {
            if self.found.contains(&interface) {
                continue;
            }
            if self.wrong != ParentsBefore {
                self.found.push(interface);
            }
            if self.wrong != OneLevel {
                self.above(interface);
            }
            if self.wrong == ParentsBefore {
                self.found.push(interface);
            }
        }
    }

    fn level_by_level(&mut self, class: Place) {
        let mut left: VecDeque<Place> = self.contents.interfaces(class).collect();
        while let Some(interface) = left.pop_front() {
            if !self.found.contains(&interface) {
                self.found.push(interface);
                left.extend(self.contents.interfaces(interface));
            }
        }
    }
}

impl Misreading {
    /// Is 19 not asked of a call?
    pub fn passes_19(self, call: &Call) -> bool {
        let elsewhere = call.meant.declared.class != call.meant.named;
        self == Misreading::Search(Unasked19) && elsewhere
    }
}
