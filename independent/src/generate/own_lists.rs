//! Lists with FE at their limits and past them, and damage to lists.

use super::model::{ClassModel, FileModel, MethodModel};
use super::random::Random;
use crate::package::Version;
use crate::policy::{EVERY, MAX_ALLOWED, OWN};

/// A file, the case and the number that a load with room for it answers.
pub struct OwnLimit {
    pub name: &'static str,
    pub number: u8,
    pub file: Vec<u8>,
}

/// A method with this list, not implemented, in a file with these domains.
fn with_list(version: Version, aid: &[u8], domains: &[&[u8]], list: Option<&[u8]>) -> FileModel {
    let method = MethodModel::new(0, 1, list, &[]);
    FileModel {
        version,
        aid: aid.to_vec(),
        domains: domains.iter().map(|aid| aid.to_vec()).collect(),
        classes: vec![ClassModel::new(0, &[], vec![method])],
        ..FileModel::default()
    }
}

/// Lists on both sides of each edge, in a file with so many domains.
pub fn own_limits(
    version: Version,
    aid: &[u8],
    domain: &[u8],
    domain_count: usize,
) -> Vec<OwnLimit> {
    let domains = vec![domain; domain_count];
    let past = domain_count as u8;
    let most = MAX_ALLOWED;
    let among = match past.checked_sub(1) {
        Some(last) => vec![last, OWN, OWN, 0],
        None => vec![OWN; 3],
    };
    let cases: [(&str, u8, Vec<u8>); 12] = [
        ("FE alone", 0, vec![OWN]),
        ("FE twice", 0, vec![OWN; 2]),
        ("FE among indexes", 0, among),
        ("FE 32 times", 0, vec![OWN; most]),
        ("FE 33 times", 11, vec![OWN; most + 1]),
        ("count FE with as many FE", 11, vec![OWN; usize::from(OWN)]),
        ("index FD", 11, vec![0xFD]),
        ("index FF", 11, vec![EVERY]),
        ("index FD after FE", 11, vec![OWN, 0xFD]),
        ("index FF after FE", 11, vec![OWN, EVERY]),
        ("the domain count as an index", 11, vec![past]),
        ("the same before FE", 11, vec![past, OWN]),
    ];
    let build = |(name, number, list): (&'static str, u8, Vec<u8>)| OwnLimit {
        name,
        number,
        file: with_list(version, aid, &domains, Some(&list)).bytes(),
    };
    let mut files: Vec<OwnLimit> = cases.into_iter().map(build).collect();
    let open = with_list(version, aid, &domains, None);
    let mut file = open.bytes();
    file[open.policy_places()[0]] = OWN;
    let (name, number) = ("count FE alone", 11);
    files.push(OwnLimit { name, number, file });
    files
}

/// The places of the policies of a file, if it reads as laid out.
fn policy_places(file: &[u8]) -> Vec<usize> {
    FileModel::read(file).map_or(Vec::new(), |model| model.policy_places())
}

/// A byte of a policy, and what to put there: FD, FE, FF or a limit passed.
pub fn policy_damage(random: &mut Random, file: &[u8]) -> Option<(usize, u8)> {
    let place = *random.pick_any(&policy_places(file))?;
    let count = file[place];
    if count == EVERY || count == 0 || random.chance(30) {
        let counts = [OWN, OWN, 0xFD, MAX_ALLOWED as u8 + 1];
        return Some((place, *random.pick(&counts)));
    }
    let index = place + 1 + random.below(usize::from(count));
    Some((index, *random.pick(&[0xFD, OWN, OWN, EVERY])))
}
