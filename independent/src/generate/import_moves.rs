//! Fixed sequences of request 6: classes below imported ones, and packages that are removed and
//! loaded again, so that imports lie elsewhere from one load to the next, near places where the
//! bytes of a number change.

use super::faults::{BODY, STATIC_BODY};
use super::files::sized_file;
use super::import_cases::{after_both, case, imported, importing, judged, numbered, removal};
use super::import_cases::{Case, For, IMPORTER};
use super::model::{ClassModel, FileModel, MethodModel};
use super::special::{load, load_in, OTHER};
use crate::limits::STANDARD_CODE;
use crate::loader::Sequence;
use crate::package::Version;

/// How many packages there are to be imported.
const COUNT: u8 = 5;

/// A package of one class with a method that runs.
fn inherited(aid: &[u8], whom: For) -> FileModel {
    FileModel {
        aid: aid.to_vec(),
        classes: vec![ClassModel::new(0, &[], vec![whom.method(BODY)])],
        ..FileModel::default()
    }
}

/// A file whose class below the class of the import of this number is named in a call, or one
/// below that.
fn below(imports: &[&[u8]], number: u8, levels: u8) -> FileModel {
    let mut classes = vec![ClassModel::new(0, &[(number, 0)], vec![])];
    for above in 0..levels - 1 {
        classes.push(ClassModel::new(0, &[(0, above)], vec![]));
    }
    let code = [0x8B, 0, 0, 0x7A];
    let caller = MethodModel::new(STATIC_BODY, 1, Some(&[]), &code);
    classes.push(ClassModel::new(0, &[], vec![caller]));
    FileModel {
        aid: IMPORTER.to_vec(),
        imports: imports.iter().map(|aid| aid.to_vec()).collect(),
        references: vec![(0, levels - 1, 1)],
        classes,
        ..FileModel::default()
    }
}

/// One of five packages is for none; calls through own classes below each of them.
pub fn through_own() -> Vec<Case> {
    let mut found = Vec::new();
    let aids: Vec<[u8; 6]> = (0..COUNT).map(numbered).collect();
    for closed in 0..COUNT {
        for (place, aid) in (0..).zip(&aids) {
            let whom = For::nobody_if(place == closed);
            found.push(case(load(&inherited(aid, whom)), 0));
        }
        let listed: Vec<&[u8]> = aids.iter().map(|aid| &aid[..]).collect();
        let reversed: Vec<&[u8]> = listed.iter().rev().copied().collect();
        for (number, levels) in (1..=COUNT).flat_map(|k| [(k, 1), (k, 2), (k, 3)]) {
            let answer = |is: bool| For::nobody_if(is).number();
            let file = below(&listed, number, levels);
            found.extend(judged(&file, answer(number - 1 == closed)));
            let file = below(&reversed, number, levels);
            found.extend(judged(&file, answer(COUNT - number == closed)));
        }
        found.extend(aids.iter().map(|aid| removal(aid)));
    }
    found
}

/// Each of five packages in turn is removed and loaded again behind the others, every other time
/// for none; a file that imports all five calls each of them after every step.
pub fn moved() -> Vec<Case> {
    let aids: Vec<[u8; 6]> = (0..COUNT).map(numbered).collect();
    let mut whom = [For::Every; COUNT as usize];
    let loads = aids
        .iter()
        .map(|aid| case(load(&imported(aid, For::Every)), 0));
    let mut found: Vec<Case> = loads.collect();
    for turn in 0..3 * usize::from(COUNT) {
        // Steps of two reach the first, middle ones and the last.
        let place = 2 * turn % usize::from(COUNT);
        found.push(removal(&aids[place]));
        let others: Vec<usize> = (0..aids.len()).filter(|&p| p != place).collect();
        found.extend(each_called(&aids, &others, &whom));
        whom[place] = For::nobody_if(turn % 2 == 0);
        let again = imported(&aids[place], whom[place]);
        found.push(case(load_in(OTHER, &again), 0));
        let all: Vec<usize> = (0..aids.len()).collect();
        found.extend(each_called(&aids, &all, &whom));
    }
    found
}

/// A file that imports these packages, loaded once for each of them that it calls.
fn each_called(aids: &[[u8; 6]], places: &[usize], whom: &[For]) -> Vec<Case> {
    let imports: Vec<&[u8]> = places.iter().map(|&p| &aids[p][..]).collect();
    let numbers: Vec<u8> = (1..=places.len() as u8).collect();
    let each = (0..).zip(places).flat_map(|(k, &place): (u16, _)| {
        let file = importing(&imports, &numbers, &[k]);
        judged(&file, whom[place].number())
    });
    each.collect()
}

/// An imported package that begins at every place near these, a package before it of as many
/// bytes as that takes; behind it one for none.
pub fn far() -> Vec<Case> {
    let [filler, open, closed] = [1, 2, 3].map(numbered);
    // Fresh and two domains take some 24 bytes, the filler's heading 9.
    let near = |edge: usize| edge - 50..=edge - 33;
    let mut found = Vec::new();
    for size in [0x100, 0x8000, 0xFF00].into_iter().flat_map(near) {
        let file = sized_file(Version::First, &filler, size, STANDARD_CODE);
        found.push(case(load(&file.expect("a file of that size")), 0));
        found.push(case(load(&imported(&open, For::Every)), 0));
        found.push(case(load(&imported(&closed, For::Nobody)), 0));
        found.extend(judged(&importing(&[&open, &closed], &[1, 2], &[0]), 0));
        found.extend(judged(&importing(&[&open, &closed], &[1, 2], &[1]), 19));
        found.extend([&filler, &open, &closed].map(|aid| removal(aid)));
    }
    found
}

/// The cases of each kind.
pub fn groups() -> [Vec<Case>; 3] {
    [through_own(), moved(), far()]
}

/// All of them as sequences.
pub fn sequences() -> Vec<Sequence> {
    let groups = groups().into_iter().zip([4096, 4096, 65_535]);
    groups
        .flat_map(|(cases, length)| after_both(length, cases))
        .collect()
}
