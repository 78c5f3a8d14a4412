//! The fixed sequences of searches: every answer by the words of request 3, said once more.

mod common;
use common::*;
use independent::generate::model::FileModel;
use independent::generate::search_cases::{all_forms, lists, places, NAME};
use independent::ledger::Call;
use independent::loader::{Sequence, Step};
use independent::package::{IMPLEMENTED, STATIC, VISIBLE};

/// A class by the numbers of its package and its own.
type At = (usize, u8);

/// Three packages, each importing the one before.
struct Packages([FileModel; 3]);

impl Packages {
    fn class(&self, (package, class): At) -> &independent::generate::model::ClassModel {
        &self.0[package].classes[usize::from(class)]
    }

    fn parents(&self, at: At) -> Vec<At> {
        let parents = self.class(at).parents.iter();
        parents
            .map(|&(k, class)| (at.0 - usize::from(k), class))
            .collect()
    }

    /// An interface, then its parents likewise: a class as often as ways lead to it.
    fn interface(&self, at: At) -> Vec<At> {
        let above = self.parents(at).into_iter();
        [at].into_iter()
            .chain(above.flat_map(|parent| self.interface(parent)))
            .collect()
    }

    /// The classes in the order of the request.
    fn order(&self, named: At) -> Vec<At> {
        let mut chain = vec![named];
        while let Some(&parent) = self
            .parents(chain[chain.len() - 1])
            .iter()
            .find(|&&parent| self.class(parent).kind == 0)
        {
            chain.push(parent);
        }
        let mut order = chain.clone();
        for class in chain {
            let interfaces = self.parents(class).into_iter();
            let interfaces = interfaces.filter(|&parent| self.class(parent).kind == 1);
            order.extend(interfaces.flat_map(|parent| self.interface(parent)));
        }
        order
    }

    /// What 18 and 19 say of the call in the third package.
    fn number(&self) -> u32 {
        let third = &self.0[2];
        let named = (2, third.references[0].1);
        let declares = |&at: &At| {
            let methods = &self.class(at).methods;
            methods.iter().find(|m| m.name == NAME).map(|m| (at, m))
        };
        let Some((at, method)) = self.order(named).iter().find_map(declares) else {
            return 18;
        };
        let of_interface = |at: At| self.class(at).kind == 1;
        let static_ = method.bits & STATIC != 0;
        let form = match third.classes.last().unwrap().methods[0].code[0] {
            0x8B => !static_ && !of_interface(named),
            0x8C => method.bits & IMPLEMENTED != 0,
            0x8D => static_,
            _ => !static_ && of_interface(at),
        };
        match (
            form && (at.0 == 2 || method.bits & VISIBLE != 0),
            &method.allowed,
        ) {
            (false, _) => 18,
            (true, Some(_)) => 19,
            (true, None) => 0,
        }
    }
}

/// The files that the first calls load, if they are loads.
fn loaded(steps: &[Step]) -> Option<[FileModel; 3]> {
    let file = |step: &Step| match step {
        Step::Call(Call::Load { file, .. }) => FileModel::read(file),
        _ => None,
    };
    Some([file(&steps[0])?, file(&steps[1])?, file(&steps[2])?])
}

/// Asserts the number of each third load; how often each of 18, 19 and another is answered.
fn asserted(sequence: &Sequence) -> [usize; 3] {
    let answered = numbers(sequence);
    let mut counts = [0; 3];
    for start in (3..sequence.steps.len()).step_by(6) {
        let packages = Packages(loaded(&sequence.steps[start..]).expect("three loads"));
        let [first, second, third] = answered[start..start + 3] else {
            panic!("three answers");
        };
        // Where the first two are not accepted, the third finds no import.
        if (first, second) != (0, 0) {
            assert_eq!(third, 13);
            continue;
        }
        let expected = packages.number();
        match expected {
            0 => assert!(matches!(third, 0 | 20)),
            _ => assert_eq!(third, expected),
        }
        counts[[18, 19, 0].iter().position(|&n| n == expected).unwrap()] += 1;
    }
    counts
}

#[test]
fn declarations_in_every_place() {
    for sequence in places() {
        let counts = asserted(&sequence);
        assert!(
            counts[0] > 0 && counts[1] > 40 && counts[2] > 100,
            "{counts:?}"
        );
    }
}

#[test]
fn declarations_of_every_form() {
    for sequence in all_forms() {
        let counts = asserted(&sequence);
        assert!(counts[0] > 100 && counts[2] > 50, "{counts:?}");
    }
}

#[test]
fn declarations_with_lists() {
    for sequence in lists() {
        let answered = numbers(&sequence);
        let of = |number: u32| answered.iter().filter(|&&n| n == number).count();
        assert!(of(19) > 50 && of(0) > 50 && of(18) == 0);
    }
}
