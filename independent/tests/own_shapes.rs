//! Generated files have lists with FE in every shape.

use independent::generate::model::FileModel;
use independent::generate::sequences::sequence;
use independent::ledger::Call;
use independent::loader::Step;

const OWN: u8 = 0xFE;

/// How many lists of each shape there must be in the loads of 500 sequences.
const LEAST: usize = 100;

/// The files of a sequence's loads that read as laid out.
fn files(seed: u64) -> impl Iterator<Item = FileModel> {
    let steps = sequence(seed).steps.into_iter();
    steps.filter_map(|step| match step {
        Step::Call(Call::Load { file, .. }) => FileModel::read(&file),
        _ => None,
    })
}

#[test]
fn lists_with_fe_in_every_shape() {
    const SHAPES: [&str; 6] = [
        "alone",
        "among indexes",
        "repeated",
        "32 items",
        "without domains",
        "in a file with two domains or more",
    ];
    let mut counts = [0; SHAPES.len()];
    for file in (0..500).flat_map(files) {
        let methods = file.classes.iter().flat_map(|class| &class.methods);
        for list in methods.filter_map(|method| method.allowed.as_ref()) {
            let own = list.iter().filter(|&&index| index == OWN).count();
            let shapes = [
                list.len() == 1,
                own < list.len(),
                own > 1,
                list.len() == 32,
                file.domains.is_empty(),
                file.domains.len() > 1,
            ];
            if own > 0 {
                for (count, shape) in counts.iter_mut().zip(shapes) {
                    *count += usize::from(shape);
                }
            }
        }
    }
    for (count, shape) in counts.into_iter().zip(SHAPES) {
        assert!(count >= LEAST, "{shape}: {count}");
    }
    println!("{counts:?}");
}
