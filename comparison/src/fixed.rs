//! The cases that every run compares, whatever its count.

use crate::seeded::{flipped, over, with_faults};
use independent::generate::full_stores::full_stores;
use independent::generate::handler_cases;
use independent::generate::import_cases;
use independent::generate::import_moves;
use independent::generate::int_cases;
use independent::generate::kind_cases;
use independent::generate::limit_cases;
use independent::generate::lineages::lineages;
use independent::generate::own_pairs::own_pairs;
use independent::generate::reference_cases;
use independent::generate::search_cases;
use independent::generate::special;
use independent::loader::Sequence;
use independent::package::Version;
use independent::questions::OF_A_FILE;
use independent::without_int::DomainKind;

pub struct Group {
    pub name: &'static str,
    pub sequences: Box<dyn Iterator<Item = Sequence>>,
}

fn group(name: &'static str, sequences: impl Iterator<Item = Sequence> + 'static) -> Group {
    let sequences = Box::new(sequences);
    Group { name, sequences }
}

/// The groups in the order in which they are run; the seed is that of the run.
pub fn groups(seed: u64) -> Vec<Group> {
    let mut found = at_limits();
    found.extend(of_version_2());
    found.extend(of_limits());
    found.extend(of_kinds());
    found.extend(of_searches());
    found.extend(of_imports());
    found.extend(given());
    found.extend(seeded(seed));
    found
}

/// Lengths, counts and lists.
fn at_limits() -> Vec<Group> {
    let limits = Version::BOTH.into_iter().map(special::limits);
    let lists = std::iter::once_with(special::own_limit_lists);
    vec![
        group(
            "buffers and arguments of all lengths",
            special::lengths().into_iter(),
        ),
        group("limits at their value and one past", limits),
        group("lists with FE at their limits and past", lists),
        group("two packages with FE in every way", own_pairs().into_iter()),
    ]
}

/// Versions and handlers.
fn of_version_2() -> Vec<Group> {
    let limits = std::iter::once_with(handler_cases::limits);
    let orders = std::iter::once_with(handler_cases::orders);
    vec![
        group("versions and handlers at their limits and past", limits),
        group(
            "every handler of short codes",
            handler_cases::handlers_of_codes().into_iter(),
        ),
        group("faults of two codes in every order", orders),
        group(
            "two packages of either version",
            handler_cases::version_pairs().into_iter(),
        ),
    ]
}

/// Stores of version 2 and their limits.
fn of_limits() -> Vec<Group> {
    vec![
        group(
            "limits given on both sides of each edge",
            limit_cases::given().into_iter(),
        ),
        group(
            "openings of version 2 in every way",
            limit_cases::stored().into_iter(),
        ),
        group(
            "files at the limits of stores and past",
            limit_cases::at_limits().into_iter(),
        ),
    ]
}

/// Domains of both kinds, and barred instructions.
fn of_kinds() -> Vec<Group> {
    vec![
        group(
            "every instruction in domains of both kinds",
            int_cases::instructions().into_iter(),
        ),
        group(
            "faults of three codes, 26 among them, in every order",
            int_cases::orders().into_iter(),
        ),
        group(
            "domains of both kinds under one AID",
            kind_cases::domains().into_iter().chain(kind_cases::rooms()),
        ),
        group(
            "kinds of entries in every way",
            kind_cases::kinds().into_iter(),
        ),
        group(
            "packages that call across kinds",
            kind_cases::meetings().into_iter(),
        ),
    ]
}

/// Calls that name inheriting classes.
fn of_searches() -> Vec<Group> {
    vec![
        group(
            "a name declared in every choice of a hierarchy's classes",
            search_cases::places().into_iter(),
        ),
        group(
            "declarations in every form, called in every way",
            search_cases::all_forms().into_iter(),
        ),
        group(
            "inherited declarations and callers with lists in every way",
            search_cases::lists().into_iter(),
        ),
        group(
            "one or two of many references name what the others do not",
            reference_cases::many().into_iter(),
        ),
    ]
}

/// Places of imports.
fn of_imports() -> Vec<Group> {
    vec![
        group(
            "imports that are nearly alike, repeated, 15, or past their count",
            import_cases::sequences().into_iter(),
        ),
        group(
            "imports called through own classes, and imports that move",
            import_moves::sequences().into_iter(),
        ),
    ]
}

/// Stores and codes that are the same in every run.
fn given() -> Vec<Group> {
    let codes = Version::BOTH.into_iter().flat_map(special::short_codes);
    vec![
        group("stores full to the byte", full_stores().into_iter()),
        group(
            "parents of three classes in every way",
            lineages().into_iter(),
        ),
        group("hostile ladders", special::hostile().into_iter()),
        group(
            "one byte of a store flipped, then each call",
            special::damaged_stores(),
        ),
        group("codes of one and two bytes", codes),
    ]
}

/// Files and stores by the seed.
fn seeded(seed: u64) -> Vec<Group> {
    let seeds = move |count: u64| (0..count).map(move |n| seed.wrapping_mul(257).wrapping_add(n));
    let faults = seeds(30).flat_map(|s| {
        let kind = DomainKind::BOTH[s as usize % 2];
        [with_faults(s, kind, 1), with_faults(s, kind, 2)]
    });
    let questions = (0..=5).chain(OF_A_FILE).chain([30]);
    let stores = questions.flat_map(move |question| seeds(10).map(move |s| over(s, question)));
    let codes = seeds(64).map(|s| special::three_byte_codes(Version::BOTH[s as usize % 2], s));
    vec![
        group("one and two faults per file", faults),
        group("stores with one fault", stores),
        group(
            "every byte of further stores flipped",
            seeds(6).map(flipped),
        ),
        group("codes of three bytes", codes),
    ]
}
