//! Two packages, in one domain or two, with lists that say FE and others in every way.

use super::faults::{BARE, BODY, RETURN, STATIC_BODY};
use super::model::{ClassModel, FileModel, MethodModel};
use super::special::{after_fresh, load_in, DOMAIN, FIRST, OTHER, SECOND, THIRD};
use crate::ledger::Call;
use crate::loader::Sequence;
use crate::policy::OWN;

/// A list of a file whose domains are `DOMAIN` and `OTHER`; `None` is FF.
pub type List = Option<&'static [u8]>;

pub const LISTS: [List; 9] = [
    None,
    Some(&[]),
    Some(&[0]),
    Some(&[1]),
    Some(&[OWN]),
    Some(&[OWN, 0]),
    Some(&[1, OWN]),
    Some(&[0, 1]),
    Some(&[OWN, OWN]),
];

/// The domains that packages lie in.
pub const HOMES: [&[u8]; 2] = [DOMAIN, OTHER];

/// How the second package meets the first.
#[derive(Clone, Copy, Debug, PartialEq, Eq)]
pub enum Meeting {
    /// A method with the list calls the first one's method.
    Calls,
    /// A method with the list runs in place of the first one's.
    Overrides,
    /// The first one's method runs for an interface's with the list.
    Inherits,
}

pub const MEETINGS: [Meeting; 3] = [Meeting::Calls, Meeting::Overrides, Meeting::Inherits];

fn file(aid: &[u8], classes: Vec<ClassModel>) -> FileModel {
    FileModel {
        aid: aid.to_vec(),
        domains: vec![DOMAIN.to_vec(), OTHER.to_vec()],
        classes,
        ..FileModel::default()
    }
}

/// A class with a static method 1 and another method 2 of this list.
pub fn first(list: List) -> FileModel {
    let methods = vec![
        MethodModel::new(STATIC_BODY, 1, list, RETURN),
        MethodModel::new(BODY, 2, list, RETURN),
    ];
    file(FIRST, vec![ClassModel::new(0, &[], methods)])
}

/// A package that meets the first; class 0 has method 2 with this list.
pub fn second(meeting: Meeting, list: List) -> FileModel {
    let with = |kind, parents: &[(u8, u8)], bits, code: &[u8]| {
        ClassModel::new(kind, parents, vec![MethodModel::new(bits, 2, list, code)])
    };
    let classes = match meeting {
        Meeting::Calls => vec![with(0, &[], STATIC_BODY, &[0x8D, 0, 0, 0x7A])],
        Meeting::Overrides => vec![with(0, &[(1, 0)], BODY, RETURN)],
        Meeting::Inherits => vec![
            with(1, &[], BARE, &[]),
            ClassModel::new(0, &[(0, 0), (1, 0)], vec![]),
        ],
    };
    FileModel {
        imports: vec![FIRST.to_vec()],
        references: vec![(1, 0, 1)],
        ..file(SECOND, classes)
    }
}

/// For each first list and home: the first package and queries of it; then each second
/// package in each home, loaded, asked about and removed.
pub fn own_pairs() -> Vec<Sequence> {
    let mut sequences = Vec::new();
    for list in LISTS {
        for home in HOMES {
            let mut calls = vec![load_in(home, &first(list))];
            calls.extend(queries(FIRST));
            for meeting in MEETINGS {
                for below in LISTS {
                    calls.extend(HOMES.iter().flat_map(|home| meet(meeting, below, home)));
                }
            }
            sequences.push(after_fresh(512, calls));
        }
    }
    sequences
}

fn meet(meeting: Meeting, list: List, home: &[u8]) -> Vec<Call> {
    let mut calls = vec![load_in(home, &second(meeting, list))];
    calls.extend(queries(SECOND));
    calls.push(Call::Remove(SECOND.to_vec()));
    calls
}

/// Queries of class 0's method 2 for both homes and a domain that is not created.
fn queries(package: &[u8]) -> impl Iterator<Item = Call> + '_ {
    [DOMAIN, OTHER, THIRD]
        .into_iter()
        .map(|domain| Call::Query {
            domain: domain.to_vec(),
            package: package.to_vec(),
            class: 0,
            name: 2,
        })
}
