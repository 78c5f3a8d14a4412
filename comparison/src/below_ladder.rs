//! Small packages below a ladder of interfaces over seven packages.

use crate::ordinary::{domain, package};
use crate::workloads::{four_domains, query, used, written, Workload, BELOW};
use independent::generate::model::{ClassModel, FileModel};
use independent::ledger::Entry;

/// A package of one import, or none, whose classes have these parents.
fn importer(number: usize, import: Option<usize>, kind: u8, parents: &[Vec<(u8, u8)>]) -> Entry {
    let class = |parents: &Vec<(u8, u8)>| ClassModel::new(kind, parents, vec![]);
    let model = FileModel {
        aid: package(number),
        imports: import.map(package).into_iter().collect(),
        classes: parents.iter().map(class).collect(),
        ..FileModel::default()
    };
    Entry::Package {
        domain: domain(0),
        file: model.bytes(),
    }
}

/// A full store: 500 packages without imports, then seven levels of 32 interfaces with four
/// parents each in the level before, then packages of one class with four parents in the last
/// level. A query judges them all.
pub(crate) fn below_ladder() -> Workload {
    let four = |class: u8| (0..4).map(|k| (1, (4 * class + k) % 32)).collect();
    let mut entries = four_domains();
    entries.extend((0..500).map(|number| importer(number, None, 0, &[])));
    let first = vec![Vec::new(); 32];
    entries.push(importer(500, None, 1, &first));
    let level: Vec<Vec<(u8, u8)>> = (0..32).map(four).collect();
    entries.extend((501..507).map(|number| importer(number, Some(number - 1), 1, &level)));
    for number in 507.. {
        entries.push(importer(number, Some(506), 0, &level[..1]));
        if used(&entries) > 65_535 {
            entries.pop();
            break;
        }
    }
    Workload {
        name: BELOW,
        size: format!("{} packages", entries.len() - 4),
        store: written(&entries, 65_535),
        call: query(506),
        number: 9,
    }
}
