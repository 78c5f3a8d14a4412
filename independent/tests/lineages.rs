//! The depth figure of three classes whose parents are chosen in every way.

use independent::generate::lineages::lineages;
use independent::generate::model::FileModel;
use independent::ledger::Call;
use independent::loader::{Independent, Loader, Step};

/// The depth of a class by the records of its parents; classes 0 and 1 of package 1
/// have depths 1 and 2, class 0 of package 2 has depth 3.
fn depth_of(model: &FileModel, parent: (u8, u8)) -> u8 {
    match parent {
        (1, class) => class + 1,
        (2, _) => 3,
        (_, class) => {
            let parents = model.classes[usize::from(class)].parents.iter();
            1 + parents.map(|&p| depth_of(model, p)).max().unwrap_or(0)
        }
    }
}

/// The file of a load, if it imports two packages.
fn judged_file(call: &Call) -> Option<FileModel> {
    let Call::Load { file, .. } = call else {
        return None;
    };
    FileModel::read(file).filter(|model| model.imports.len() == 2)
}

#[test]
fn parents_of_three_classes_in_every_way() {
    let mut depths = [0; 9];
    for sequence in lineages() {
        let mut store = sequence.start;
        for step in sequence.steps {
            let Step::Call(call) = step else {
                panic!("no call: {step:?}");
            };
            let answer = Independent.call(&mut store, &call);
            if let Some(model) = judged_file(&call) {
                let classes = (0..3).map(|class| depth_of(&model, (0, class)));
                let deepest = classes.max().unwrap();
                assert_eq!(answer, u32::from(deepest) << 8);
                depths[usize::from(deepest)] += 1;
            }
        }
    }
    assert_eq!(depths.iter().sum::<u32>(), 4 * 5 * 6 + 13 * 21 * 31);
    assert!(depths[1..=6].iter().all(|&count| count > 0), "{depths:?}");
}
