//! Wrong readings of where imports lie (request 6).

use crate::code::CallKind;
use crate::contents::{Contents, Installed, MethodPlace, Place};
use crate::load_questions;
use crate::misreadings::Misreading;
use crate::package::{Package, MAX_IMPORTS};
use crate::search::{Meanings, Meant};
use std::collections::HashSet;

#[derive(Clone, Copy, Debug, PartialEq, Eq)]
pub enum ImportMisreading {
    /// An import is the first package whose AID begins with the import's.
    BeginsWith,
    /// An import is the first package whose AID begins the import's.
    BeginsIt,
    /// An import is the first package whose AID differs in the last byte at most.
    ButLastByte,
    /// An import is the first package whose AID differs in zeros at the end at most.
    ButZeros,
    /// An import is the last package with an AID of that length.
    LastOfLength,

    /// The second import's place is used for the first.
    SecondForFirst,
    /// Each number has the place of the next one; the last keeps its own.
    OneFurther,
    /// Each number has the place of the one before; the first keeps its own.
    OneBefore,
    /// A repeated import takes no number.
    RepeatsOnce,
    /// A repeated import is found by its first number alone.
    RepeatsMissing,
    /// The last of 15 imports is not found.
    Fourteen,

    /// A number past the imports is the last of them.
    PastIsLast,
    /// A number past the imports is the first package of the store.
    PastIsFirst,
    /// Of a number the low four bits are read.
    LowBits,
    /// A number past the imports is refused where no call uses it, too.
    PastUncalled,

    /// In a search each parent of an own class has the place of the next import.
    ParentsFurther,
}

use ImportMisreading::*;

impl ImportMisreading {
    pub const ALL: [ImportMisreading; 16] = [
        BeginsWith,
        BeginsIt,
        ButLastByte,
        ButZeros,
        LastOfLength,
        SecondForFirst,
        OneFurther,
        OneBefore,
        RepeatsOnce,
        RepeatsMissing,
        Fourteen,
        PastIsLast,
        PastIsFirst,
        LowBits,
        PastUncalled,
        ParentsFurther,
    ];

    /// Those that find another package than the one with the import's AID.
    pub const FINDING: [ImportMisreading; 5] =
        [BeginsWith, BeginsIt, ButLastByte, ButZeros, LastOfLength];

    /// The number of the package that is taken for an import, by a reading that finds another.
    pub fn found(self, packages: &[Installed], aid: &[u8]) -> Option<usize> {
        let taken = |p: &Installed| self.alike(p.package.aid, aid);
        match self {
            LastOfLength => packages.iter().rposition(taken),
            _ => packages.iter().position(taken),
        }
    }

    /// Is an installed AID taken for that of an import?
    pub fn alike(self, installed: &[u8], import: &[u8]) -> bool {
        let same_length = installed.len() == import.len();
        match self {
            BeginsWith => installed.starts_with(import),
            BeginsIt => import.starts_with(installed),
            ButLastByte => same_length && installed.starts_with(&import[..import.len() - 1]),
            ButZeros => without_zeros(installed) == without_zeros(import),
            LastOfLength => same_length,
            _ => installed == import,
        }
    }

    /// The package that a number above 0 is taken for.
    fn place(self, contents: &Contents, judged: usize, number: usize) -> Option<usize> {
        let holder = &contents.packages[judged];
        let right = &holder.imports;
        let own = right.get(number - 1);
        let taken = match self {
            BeginsWith | BeginsIt | ButLastByte | ButZeros | LastOfLength => {
                let aid = holder.package.imports.get(number - 1)?;
                return self.found(&contents.packages[..judged], aid);
            }
            RepeatsOnce => {
                let mut seen = HashSet::new();
                let mut once = right.iter().filter(|&&place| seen.insert(place));
                return once.nth(number - 1).copied();
            }
            PastIsFirst if own.is_none() => return (judged > 0).then_some(0),
            SecondForFirst if number == 1 => right.get(1).or(own),
            OneFurther => right.get(number).or(own),
            OneBefore if number > 1 => own.and(right.get(number - 2)),
            RepeatsMissing => own.filter(|place| !right[..number - 1].contains(place)),
            Fourteen => own.filter(|_| number < MAX_IMPORTS),
            PastIsLast => own.or(right.last()),
            LowBits => match number % 16 {
                0 => Some(&judged),
                low => right.get(low - 1),
            },
            _ => own,
        };
        taken.copied()
    }

    /// The class that package and class numbers of the package judged are taken for.
    fn class(
        self,
        contents: &Contents,
        judged: usize,
        (package, class): (u8, u8),
    ) -> Option<Place> {
        let package = match package {
            0 => judged,
            number => self.place(contents, judged, number.into())?,
        };
        let class = usize::from(class);
        let exists = class < contents.packages[package].package.classes.len();
        exists.then_some(Place { package, class })
    }

    /// What a call is taken to mean, if it is taken for one that may be.
    pub fn meant(
        self,
        contents: &Contents,
        judged: usize,
        kind: CallKind,
        index: usize,
    ) -> Option<Meant> {
        let package = &contents.packages[judged].package;
        let reference = package.references.get(index)?;
        let numbers = (reference.package, reference.class);
        let (named, declared) = match self {
            ParentsFurther => {
                let named = contents.class_numbered(judged, numbers.0, numbers.1)?;
                (named, further(contents, judged, named, reference.name)?)
            }
            _ => {
                let named = self.class(contents, judged, numbers)?;
                let mut meanings = Meanings::new(contents, judged);
                (named, meanings.declaration(index, named, reference.name)?)
            }
        };
        let meant = Meant { named, declared };
        load_questions::fits(contents, judged, kind, &meant).then_some(meant)
    }
}

/// An AID without the zeros at its end.
fn without_zeros(aid: &[u8]) -> &[u8] {
    let zeros = aid.iter().rev().take_while(|&&byte| byte == 0).count();
    &aid[..aid.len() - zeros]
}

/// The search where each parent of an own class has the place of the next import.
fn further(contents: &Contents, judged: usize, named: Place, name: u16) -> Option<MethodPlace> {
    let parents = |class: Place| -> Vec<Place> {
        if class.package != judged {
            return contents.lineage(class).parents.clone();
        }
        let listed = contents.class(class).parents.iter();
        let taken = listed.filter_map(|&numbers| OneFurther.class(contents, judged, numbers));
        taken.collect()
    };
    let interface = |class: &Place| contents.class(*class).interface;
    let above = |class: &Place| {
        parents(*class)
            .into_iter()
            .find(|parent| !interface(parent))
    };
    let chain: Vec<Place> = std::iter::successors(Some(named), above).collect();
    let mut order = chain.clone();
    // What is left to ask, the next one last.
    let of = |class: Place| parents(class).into_iter().filter(interface).rev();
    let mut left: Vec<Place> = chain.iter().rev().flat_map(|&class| of(class)).collect();
    while let Some(next) = left.pop() {
        if !order.contains(&next) {
            order.push(next);
            left.extend(of(next));
        }
    }
    order
        .into_iter()
        .find_map(|class| contents.declared(class, name))
}

impl Misreading {
    /// The package that is taken for an import that is not installed.
    pub fn taken_for_import(self, contents: &Contents, aid: &[u8]) -> Option<usize> {
        match self {
            Misreading::Imports(wrong) => wrong.found(&contents.packages, aid),
            _ => None,
        }
    }

    /// Are a file's references refused, called or not?
    pub fn refuses_references(self, package: &Package) -> bool {
        let past = |number: u8| usize::from(number) > package.imports.len();
        self == Misreading::Imports(PastUncalled)
            && package.references.iter().any(|r| past(r.package))
    }
}
