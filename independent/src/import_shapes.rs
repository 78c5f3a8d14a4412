//! What calls of imported methods meet where imports are looked for.

use crate::code;
use crate::contents::{MethodPlace, Place};
use crate::load_questions::{fits, q19, Call};
use crate::misread_imports::ImportMisreading::{self, *};
use crate::package::MAX_IMPORTS;
use crate::search::{Meanings, Meant};
use crate::search_shapes::Load;
use Shape::*;

/// What accepted loads are counted by, and loads refused with 18 or 19: there it is met by a
/// call that is not as asked.
#[derive(Clone, Copy, PartialEq, Eq, PartialOrd, Ord)]
pub(crate) enum Shape {
    BeginsOther,
    OtherBegins,
    ShorterFirst,
    LongerFirst,
    LastByte,
    Zeros,
    Repeated,
    Fifteen,
    First,
    Middle,
    Last,
    ThroughOwn,
    OnePast,
    Sixteen,
    Greatest,
    Moved,
}

pub(crate) const SHAPES: [&str; 16] = [
    "an import's AID begins that of another package",
    "another package's AID begins an import's",
    "one import's AID begins that of a later one, both called",
    "one import's AID begins that of an earlier one, both called",
    "an import's AID differs from another package's in the last byte alone",
    "an import's AID differs from another package's in zeros at the end alone",
    "one import has two numbers, both called",
    "of 15 imports the first, the last and another are called",
    "an import is the first package of three or more",
    "an import is neither the first package nor the last",
    "an import is the last package of three or more",
    "a call means a declaration outside through an own class",
    "a package number is one past the imports",
    "a package number is 16",
    "a package number is 255",
    "an import lies elsewhere than when it was imported before",
];

/// A call by a reference that exists.
struct Made {
    /// The package number of the reference.
    number: u8,
    /// Is it in an accepted load, or not as asked?
    counts: bool,
    through_own: bool,
}

impl Load<'_, '_> {
    /// The shapes of its calls and references, some more than once; `moved` tells of an import
    /// by its place in the list.
    pub fn import_shapes(&self, moved: &[bool]) -> Vec<Shape> {
        let made = self.made();
        let mut shapes = Vec::new();
        let counted = made.iter().filter(|call| call.counts);
        for call in counted.clone() {
            shapes.extend(call.through_own.then_some(ThroughOwn));
            if (1..=self.aids().len()).contains(&call.number.into()) {
                let place = usize::from(call.number) - 1;
                self.alone(place, &mut shapes);
                self.with_others(place, &made, &mut shapes);
                shapes.extend(moved[place].then_some(Moved));
            }
        }
        // In an accepted load no call has such a number.
        let refused: Vec<u8> = counted.map(|call| call.number).collect();
        let all = &self.contents.packages[self.judged()].package.references;
        let accepted = || all.iter().map(|reference| reference.package).collect();
        let numbers: Vec<u8> = if self.number == 0 {
            accepted()
        } else {
            refused
        };
        numbers
            .iter()
            .for_each(|&number| self.past(number, &mut shapes));
        shapes
    }

    fn aids(&self) -> &[&[u8]] {
        &self.contents.packages[self.judged()].package.imports
    }

    fn made(&self) -> Vec<Made> {
        let package = self.judged();
        let references = &self.contents.packages[package].package.references;
        let mut meanings = Meanings::new(self.contents, package);
        let mut made = Vec::new();
        for code in self.codes {
            let class = code.class;
            let caller = MethodPlace {
                class: Place { package, class },
                method: code.method,
            };
            for (kind, index) in code::calls(code.bytes, &code.starts) {
                let Some(reference) = references.get(index) else {
                    continue;
                };
                let (number, class) = (reference.package, reference.class);
                let meant = meanings.of(index);
                let as_asked = |meant: Meant| {
                    let call = Call {
                        kind,
                        caller,
                        meant,
                    };
                    let asked_19 = self.number == 19;
                    let fits = fits(self.contents, package, kind, &meant);
                    fits && (!asked_19 || q19(self.contents, self.domain, &[call]))
                };
                made.push(Made {
                    number,
                    counts: self.number == 0 || !meant.is_some_and(as_asked),
                    through_own: number == 0 && self.leads_outside(class, meant),
                });
            }
        }
        made
    }

    /// Does the search from an own class end outside the file or, without an end, lead there?
    fn leads_outside(&self, class: u8, meant: Option<Meant>) -> bool {
        let package = self.judged();
        let outside = |class: &Place| class.package != package;
        match (meant, self.contents.class_numbered(package, 0, class)) {
            (Some(meant), _) => outside(&meant.declared.class),
            (None, Some(own)) => self.contents.with_ancestors(own).iter().any(outside),
            (None, None) => false,
        }
    }

    /// What an import is among the installed packages.
    fn alone(&self, place: usize, shapes: &mut Vec<Shape>) {
        let (judged, aid) = (self.judged(), self.aids()[place]);
        let others = self.contents.packages[..judged]
            .iter()
            .map(|p| p.package.aid);
        let others: Vec<&[u8]> = others.filter(|&other| other != aid).collect();
        let near = [
            (BeginsWith, BeginsOther),
            (BeginsIt, OtherBegins),
            (ButLastByte, LastByte),
            (ButZeros, Zeros),
        ];
        let met = |wrong: ImportMisreading| others.iter().any(|other| wrong.alike(other, aid));
        shapes.extend(near.iter().filter(|n| met(n.0)).map(|n| n.1));
        if judged >= 3 {
            shapes.push(match self.contents.packages[judged].imports[place] {
                0 => First,
                number if number == judged - 1 => Last,
                _ => Middle,
            });
        }
    }

    /// What an import is beside the other imports that are called.
    fn with_others(&self, place: usize, made: &[Made], shapes: &mut Vec<Shape>) {
        let aids = self.aids();
        let called = made.iter().map(|call| usize::from(call.number));
        let called: Vec<usize> = called.filter(|n| (1..=aids.len()).contains(n)).collect();
        for other in called
            .iter()
            .map(|number| number - 1)
            .filter(|&p| p != place)
        {
            let shorter = match (aids[place].len(), aids[other].len()) {
                (a, b) if a == b => {
                    shapes.extend((aids[place] == aids[other]).then_some(Repeated));
                    continue;
                }
                (a, b) if a < b => place,
                _ => other,
            };
            let longer = place + other - shorter;
            if aids[longer].starts_with(aids[shorter]) {
                shapes.push(if shorter < longer {
                    ShorterFirst
                } else {
                    LongerFirst
                });
            }
        }
        let middle = called
            .iter()
            .any(|number| (2..MAX_IMPORTS).contains(number));
        if middle && [1, MAX_IMPORTS].iter().all(|end| called.contains(end)) {
            shapes.push(Fifteen);
        }
    }

    fn past(&self, number: u8, shapes: &mut Vec<Shape>) {
        let one_past = usize::from(number) == self.aids().len() + 1;
        shapes.extend(one_past.then_some(OnePast));
        shapes.extend((number == 16).then_some(Sixteen));
        shapes.extend((number == 255).then_some(Greatest));
    }
}
