//! Stores that a hostile vendor could fill. Each is sound, so it is what creations and
//! loads of its entries in this order leave; the call is a query that question 7 refuses,
//! so that question 2 is all that it costs.

use crate::hostile_chains::{chain, chain_declared, chain_of_lists, lists_by_turns};
use crate::hostile_chains::{own_alone, turns_declared};
use crate::hostile_handlers::{in_second, long_codes, short_codes};
use crate::hostile_imports::with_imports;
use crate::hostile_kinds::with_kinds;
use crate::hostile_limits::with_limits;
use crate::hostile_lists::Lists;
use crate::hostile_searches::with_searches;
use crate::hostile_tables::{below, crossing, domains, maps, names, packages, references};
use crate::hostile_tables::{shuffle, Levels};
use crate::ordinary::domain;
use crate::workloads::{used, written, Workload};
use independent::generate::model::{FileModel, MethodModel};
use independent::ledger::{Call, Entry};

pub const CHAIN: &str = "a kind-0 chain of 7 × 64 names above classes of 13 bytes";
pub const CHAIN_DECLARED: &str = "the chain, a method of its own in each class below it";
pub const CHAIN_LISTS: &str = "the same with fewer names and lists of 32 indexes";
pub const LISTS_BY_TURNS: &str =
    "lists of 32 indexes, the running methods in two packages by turns";
pub const LISTS_REVERSED: &str = "lists of 32 indexes, the domains in the other order";
pub const TURNS_REVERSED: &str = "by turns, the domains in the other order";
pub const TURNS_TWICE: &str = "by turns, each domain twice, and listed by its second place";
pub const REVERSED_DECLARED: &str =
    "by turns, the domains in the other order, a method of its own in each class";
pub const TWICE_DECLARED: &str =
    "by turns, each domain twice, a method of its own in each class below";
pub const OWN_ALONE: &str = "the chain, FE alone in each list";
pub const OWN_REPEATED: &str = "lists of FE 32 times";
pub const OWN_FIRST: &str = "lists of FE and 31 indexes";
pub const OWN_LAST: &str = "lists of 31 indexes and FE, the domains in the other order";
pub const OWN_INDEX: &str = "lists of 32 indexes beside lists with FE in the last one's place";
pub const TURNS_FIRST: &str = "by turns in two domains, FE first in each list";
pub const TURNS_LAST: &str = "by turns in two domains, FE last, the others in the other order";
pub const BELOW: &str = "small packages with a method each below a ladder";
pub const CROSSING: &str = "parents crossing four packages a level";
pub const DOMAINS: &str = "domains in the order that costs most";
pub const SHUFFLED: &str = "domains in no order";
pub const UNUSED: &str = "1,024 unused references a file";
pub const CALLED: &str = "700 references a file, each called";
pub const ONE_CALLED: &str = "1,024 references a file, one of them called";
pub const MAPS: &str = "15 imports of 32 domains each";
pub const MAPS_CALLED: &str = "the same, each import called";
pub const PACKAGES: &str = "packages of chosen AIDs, 15 imports each";
pub const NAMES: &str = "64 names a class";
pub const SHORT_HANDLERS: &str = "as many codes of one byte as fit, 16 handlers each";
pub const LONG_HANDLERS: &str = "the longest codes of one-byte instructions, 16 handlers each";
pub const WIDE_HANDLERS: &str = "the longest codes of any instructions, 16 handlers each";
pub const CHAIN_SECOND: &str = "the chain in version 2";
pub const CALLED_SECOND: &str = "the references called, in 16 handlers' ranges";
pub const CHAIN_DEEP: &str = "limits 16 and 8: a chain of 15 × 64 names, 8 parents a level";
pub const TURNS_DEEP: &str =
    "limits 16 and 8: by turns, each domain twice, a method of its own in each class below";
pub const BELOW_DEEP: &str = "limits 16 and 8: small packages below a ladder of 15 levels";
pub const CROSSING_DEEP: &str = "limits 16 and 8: parents crossing eight packages a level";
pub const LONGEST_HANDLERS: &str = "codes of 32,767 and 32,400 bytes, 16 handlers each";
pub const SWITCHES: &str = "switches of 16,379 and 16,300 offsets, a code each";
pub const FAR_TURNS: &str = "half domains of both kinds, half smallest packages, by turns in them";
pub const FAR_FIRST: &str = "the same, all packages in the first two domains";
pub const FAR_LAST: &str = "the same, all packages in the last two domains";
pub const FAR_CODES: &str =
    "the same, by turns in the domains without int, a code of one byte each";
pub const PLAIN_CODES: &str = "the longest codes of one-byte instructions, without int";
pub const TYPED_CODES: &str = "the longest codes of 90 0C, without int";
pub const LONGEST_PLAIN: &str = "codes of 32,767 and 32,600 one-byte instructions, without int";

pub const SEARCH_TREE: &str =
    "1,024 references a file, each called, through a tree of 5,460 interfaces, 4 parents each";
pub const SEARCH_LADDER: &str = "the same through 7 levels of interfaces, 4 parents each";
pub const SEARCH_CROSSING: &str = "the same, the parents of each in packages far apart";
pub const SEARCH_NAMES: &str = "the same through fewer interfaces, 8 other names in each";
pub const SEARCH_CHAIN: &str =
    "1,024 references a file, each called, up a kind-0 chain of 8 × 64 names";
pub const SEARCH_TWO: &str = "thousands of calls of two references by turns, through the 7 levels";
pub const SEARCH_MANY: &str = "thousands of calls of 96 references by turns, through the 7 levels";
pub const SEARCH_ONE: &str = "1,024 references a file through the 7 levels, one of them called";
pub const SEARCH_NONE: &str = "load 1,024 references, each called, the last of them naming nothing";
pub const SEARCH_DEEP: &str =
    "limits 16 and 8: 1,024 references a file, each called, through 15 levels";
pub const SEARCH_DEEP_CROSSING: &str =
    "limits 16 and 8: the same, the parents of each in packages far apart";
pub const SEARCH_DEEP_CHAIN: &str =
    "limits 16 and 8: 1,024 references a file, each called, up a kind-0 chain of 16 × 64 names";
pub const SEARCH_DEEP_TWO: &str =
    "limits 16 and 8: thousands of calls of two references by turns, through the 15 levels";
pub const SEARCH_DEEP_NONE: &str =
    "limits 16 and 8: load 1,024 references, each called, the last of them naming nothing";

pub const IMPORTS_CALLED: &str =
    "15 imports behind hundreds of packages, 1,024 references a file, each called";
pub const IMPORTS_LOADED: &str = "load such a file behind twice as many packages";

/// The sizes of the chain's stores, for its growth.
pub const CHAIN_SIZES: [usize; 4] = [8, 16, 32, 64];

/// All of them, in the order of the table.
pub fn all() -> Vec<Workload> {
    let mut found: Vec<Workload> = CHAIN_SIZES.iter().map(|kb| chain(*kb)).collect();
    found.push(chain_declared());
    found.push(chain_of_lists(CHAIN_LISTS, Lists::alike()));
    found.push(chain_of_lists(LISTS_REVERSED, Lists::reversed()));
    found.push(lists_by_turns(
        LISTS_BY_TURNS,
        [Lists::alike(), Lists::alike()],
    ));
    found.push(lists_by_turns(
        TURNS_REVERSED,
        [Lists::reversed(), Lists::reversed()],
    ));
    found.push(lists_by_turns(
        TURNS_TWICE,
        [Lists::twice(), Lists::twice()],
    ));
    found.push(turns_declared(
        REVERSED_DECLARED,
        [Lists::reversed(), Lists::reversed()],
    ));
    found.push(turns_declared(
        TWICE_DECLARED,
        [Lists::twice(), Lists::twice()],
    ));
    found.push(own_alone());
    found.push(chain_of_lists(OWN_REPEATED, Lists::own_repeated()));
    found.push(chain_of_lists(OWN_FIRST, Lists::own_first()));
    found.push(chain_of_lists(OWN_LAST, Lists::own_last()));
    found.push(chain_of_lists(OWN_INDEX, Lists::own_index()));
    found.push(lists_by_turns(TURNS_FIRST, [0, 1].map(Lists::turns_first)));
    found.push(lists_by_turns(TURNS_LAST, [0, 1].map(Lists::turns_last)));
    found.push(below(&levels(BELOW, 7)));
    found.push(crossing(&levels(CROSSING, 6), 32));
    found.push(domains(DOMAINS, |numbers| numbers.reverse()));
    found.push(domains(SHUFFLED, shuffle));
    found.push(references(UNUSED, 1_024, 0));
    found.push(references(CALLED, 700, 700));
    found.push(references(ONE_CALLED, 1_024, 1));
    found.push(maps(MAPS, false));
    found.push(maps(MAPS_CALLED, true));
    found.push(packages());
    found.push(names());
    found.extend(with_handlers());
    found.extend(with_limits());
    found.extend(with_kinds());
    found.extend(with_searches());
    found.extend(with_imports());
    found
}

/// So many levels by the standard limits.
fn levels(name: &'static str, count: usize) -> Levels {
    Levels {
        name,
        count,
        parents: 4,
        methods: 8,
        room: LARGEST,
    }
}

/// Those of files of version 2.
fn with_handlers() -> [Workload; 5] {
    [
        short_codes(),
        long_codes(LONG_HANDLERS, false),
        long_codes(WIDE_HANDLERS, true),
        in_second(CHAIN_SECOND, &chain(64), 0),
        in_second(CALLED_SECOND, &references(CALLED, 700, 700), 16),
    ]
}

pub(crate) const LARGEST: usize = 65_535;

pub(crate) fn aid(number: usize) -> Vec<u8> {
    [&[0xB0][..], &(number as u32).to_be_bytes()].concat()
}

/// An AID of 16 bytes that differs from others in its last two.
pub(crate) fn long(number: usize) -> Vec<u8> {
    let mut bytes = vec![0xC0; 14];
    bytes.extend((number as u16).to_be_bytes());
    bytes
}

/// The domain that packages lie in where nothing else is said.
pub(crate) fn start() -> Vec<Entry> {
    vec![Entry::domain(&domain(0))]
}

pub(crate) fn packed(model: FileModel) -> Entry {
    packed_in(0, model)
}

pub(crate) fn packed_in(home: usize, model: FileModel) -> Entry {
    let (domain, file) = (domain(home), model.bytes());
    Entry::Package { domain, file }
}

/// As many entries behind the others as the store holds, made from numbers.
pub(crate) fn filled(
    mut entries: Vec<Entry>,
    length: usize,
    make: impl Fn(usize) -> Entry,
) -> Vec<Entry> {
    let mut bytes = used(&entries);
    for number in 0.. {
        let entry = make(number);
        bytes += used(std::slice::from_ref(&entry)) - used(&[]);
        if bytes > length {
            break;
        }
        entries.push(entry);
    }
    entries
}

pub(crate) fn workload(name: &'static str, entries: &[Entry], length: usize) -> Workload {
    let packages = entries
        .iter()
        .filter(|e| matches!(e, Entry::Package { .. }))
        .count();
    let (domain, package) = (domain(0), vec![9; 5]);
    Workload {
        name,
        size: format!("{} KB, {packages} packages", length.div_ceil(1024)),
        store: written(entries, length),
        call: Call::Query {
            domain,
            package,
            class: 0,
            name: 0,
        },
        number: 7,
    }
}

/// A method that is asked for, and one that may run; each allows these.
pub(crate) fn asked(name: u16, allowed: &[u8]) -> MethodModel {
    MethodModel::new(0x80, name, Some(allowed), &[])
}

pub(crate) fn runs(name: u16, allowed: Option<&[u8]>) -> MethodModel {
    MethodModel::new(0xC0, name, allowed, &[0x7A])
}
