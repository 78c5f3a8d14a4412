//! What searches for declarations meet.

use crate::code::{self, CallKind};
use crate::contents::{Contents, MethodPlace, Place};
use crate::limits::Limits;
use crate::load_questions::{fits, formed, q19, Call, Code};
use crate::misread_search::SearchMisreading::*;
use crate::package::Reference;
use crate::search::{Meanings, Meant};
use Shape::*;

/// Loads that are counted by what a call of theirs meets.
#[derive(Clone, Copy, PartialEq, Eq, PartialOrd, Ord)]
pub(crate) enum Shape {
    /// Accepted.
    InNamed,
    InChain,
    InInterface,
    InChainsInterface,
    Ordered,
    OwnToOutside,
    NotImported,
    VirtualToInterface,
    InterfaceByClass,
    Standard,
    Chosen,
    Deep,
    ManyParents,
    /// Refused with 18.
    StaticEnds,
    HiddenEnds,
    OwnToHidden,
    VirtualNamesInterface,
    NothingFound,
    NothingDeep,
    /// Refused with 19.
    Inherited19,
    NotImported19,
}

pub(crate) const SHAPES: [&str; 21] = [
    "a declaration was found in the class named",
    "a declaration was found up the kind-0 parents",
    "a declaration was found in an interface of the class named",
    "a declaration was found in an interface of a kind-0 parent",
    "a declaration was found where another order finds another",
    "a visible declaration outside was found through an own class",
    "a declaration was found in a package not imported by the file",
    "8B ended at an interface's declaration",
    "8E named a class of kind 0",
    "an inherited declaration was called in a store with the standard limits",
    "an inherited declaration was called in a store with other limits",
    "an inherited declaration was called from a class deeper than 8",
    "an inherited declaration was called from a class of more than 4 parents",
    "18: a static declaration ended the search of 8B or 8E",
    "18: an invisible declaration ended the search",
    "18: an invisible declaration outside was found through an own class",
    "18: 8B named an interface",
    "18: nothing was found above a class with parents",
    "18: nothing was found above a class deeper than 8 or of more than 4 parents",
    "19: an inherited declaration does not allow all that it must",
    "19: such a declaration lies in a package not imported by the file",
];

/// A load that came to question 18, its package the last of the contents.
pub(crate) struct Load<'c, 'a> {
    pub contents: &'c Contents<'a>,
    pub domain: &'c [u8],
    pub codes: &'c [Code<'c>],
    pub number: u8,
}

impl Load<'_, '_> {
    /// The package that is added last.
    pub fn judged(&self) -> usize {
        self.contents.packages.len() - 1
    }

    /// The shapes of its calls, some more than once.
    pub fn shapes(&self) -> Vec<Shape> {
        let package = self.judged();
        let mut meanings = Meanings::new(self.contents, package);
        let mut shapes = Vec::new();
        for code in self.codes {
            let class = code.class;
            let caller = MethodPlace {
                class: Place { package, class },
                method: code.method,
            };
            for (kind, index) in code::calls(code.bytes, &code.starts) {
                match (self.number, meanings.of(index)) {
                    (0, Some(meant)) => self.accepted(kind, &meant, &mut shapes),
                    (18, Some(meant)) => self.refused(kind, &meant, &mut shapes),
                    (18, None) => self.not_found(index, &mut shapes),
                    (19, Some(meant)) => {
                        let call = Call {
                            kind,
                            caller,
                            meant,
                        };
                        self.refused_19(call, &mut shapes);
                    }
                    _ => {}
                }
            }
        }
        shapes
    }

    fn interface(&self, class: Place) -> bool {
        self.contents.class(class).interface
    }

    /// Is the declaration in a package that the file does not import itself?
    fn not_imported(&self, meant: &Meant) -> bool {
        let home = meant.declared.class.package;
        home != self.judged()
            && !self.contents.packages[self.judged()]
                .imports
                .contains(&home)
    }

    /// Is a class one that the standard limits do not have?
    fn larger(&self, class: Place) -> [bool; 2] {
        let lineage = self.contents.lineage(class);
        let many = lineage.parents.len() > Limits::STANDARD.parents.into();
        [lineage.depth > Limits::STANDARD.depth, many]
    }

    fn accepted(&self, kind: CallKind, meant: &Meant, shapes: &mut Vec<Shape>) {
        let (named, declaring) = (meant.named, meant.declared.class);
        if named == declaring {
            return shapes.push(InNamed);
        }
        let mut interfaces = self.contents.interfaces(named);
        shapes.push(match self.interface(declaring) {
            false => InChain,
            true if interfaces.any(|i| self.contents.with_ancestors(i).contains(&declaring)) => {
                InInterface
            }
            true => InChainsInterface,
        });
        if self.ordered(meant) {
            shapes.push(Ordered);
        }
        if named.package == self.judged() && declaring.package != self.judged() {
            shapes.push(OwnToOutside);
        }
        if self.not_imported(meant) {
            shapes.push(NotImported);
        }
        match kind {
            CallKind::Virtual if self.interface(declaring) => shapes.push(VirtualToInterface),
            CallKind::Interface if !self.interface(named) => shapes.push(InterfaceByClass),
            _ => {}
        }
        shapes.push(match self.contents.limits == Limits::STANDARD {
            true => Standard,
            false => Chosen,
        });
        let [deep, many] = self.larger(named);
        shapes.extend(deep.then_some(Deep));
        shapes.extend(many.then_some(ManyParents));
    }

    /// Does another order of the same classes find another declaration?
    fn ordered(&self, meant: &Meant) -> bool {
        let name = self.contents.method(meant.declared).name;
        let orders = [
            MemberByMember,
            HighestFirst,
            BreadthFirst,
            ParentsBefore,
            LastListed,
        ];
        orders.iter().any(|wrong| {
            let mut order = wrong.order(self.contents, meant.named).into_iter();
            let found = order.find_map(|class| self.contents.declared(class, name));
            found != Some(meant.declared)
        })
    }

    fn refused(&self, kind: CallKind, meant: &Meant, shapes: &mut Vec<Shape>) {
        if fits(self.contents, self.judged(), kind, meant) {
            return;
        }
        let method = self.contents.method(meant.declared);
        let outside = meant.declared.class.package != self.judged();
        let by_form = matches!(kind, CallKind::Virtual | CallKind::Interface);
        if by_form && method.is_static {
            shapes.push(StaticEnds);
        }
        if outside && !method.visible && formed(self.contents, kind, meant) {
            shapes.push(HiddenEnds);
            if meant.named.package == self.judged() {
                shapes.push(OwnToHidden);
            }
        }
        if kind == CallKind::Virtual && self.interface(meant.named) {
            shapes.push(VirtualNamesInterface);
        }
    }

    fn not_found(&self, index: usize, shapes: &mut Vec<Shape>) {
        let package = &self.contents.packages[self.judged()].package;
        let class = |r: &Reference| {
            self.contents
                .class_numbered(self.judged(), r.package, r.class)
        };
        let Some(named) = package.references.get(index).and_then(class) else {
            return;
        };
        if !self.contents.lineage(named).parents.is_empty() {
            shapes.push(NothingFound);
        }
        if self.larger(named) != [false; 2] {
            shapes.push(NothingDeep);
        }
    }

    fn refused_19(&self, call: Call, shapes: &mut Vec<Shape>) {
        let meant = call.meant;
        if meant.named != meant.declared.class && !q19(self.contents, self.domain, &[call]) {
            shapes.push(Inherited19);
            shapes.extend(self.not_imported(&meant).then_some(NotImported19));
        }
    }
}
