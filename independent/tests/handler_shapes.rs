//! Generated files of both versions, with handlers in every shape.

use independent::generate::model::{FileModel, MethodModel};
use independent::generate::sequences::sequence;
use independent::handlers::{Handler, MAX_HANDLERS};
use independent::ledger::Call;
use independent::loader::Step;
use independent::package::{Version, IMPLEMENTED};

/// How many files or codes of each shape there must be in the loads of 1,000 sequences.
const LEAST: usize = 20;

/// The files of a sequence's loads that read as laid out.
fn files(seed: u64) -> impl Iterator<Item = FileModel> {
    let steps = sequence(seed).steps.into_iter();
    steps.filter_map(|step| match step {
        Step::Call(Call::Load { file, .. }) => FileModel::read(&file),
        _ => None,
    })
}

/// Counts the shapes that hold and asks for enough of each.
fn assert_shapes<const N: usize>(names: [&str; N], found: impl Iterator<Item = [bool; N]>) {
    let mut counts = [0; N];
    for shapes in found {
        for (count, shape) in counts.iter_mut().zip(shapes) {
            *count += usize::from(shape);
        }
    }
    for (count, name) in counts.into_iter().zip(names) {
        println!("{name}: {count}");
        assert!(count >= LEAST, "{name}: {count}");
    }
}

fn methods(file: &FileModel) -> impl Iterator<Item = &MethodModel> {
    file.classes.iter().flat_map(|class| &class.methods)
}

#[test]
fn files_of_both_versions() {
    let names = [
        "version 1",
        "version 2",
        "version 2 without a code",
        "version 2 with methods with and without a code",
        "version 2 with imports",
        "a ladder of version 2",
    ];
    let shapes = |file: FileModel| {
        let second = file.version == Version::Second;
        let coded = methods(&file).any(|m| m.bits & IMPLEMENTED != 0);
        let bare = methods(&file).any(|m| m.bits & IMPLEMENTED == 0);
        [
            !second,
            second,
            second && !coded,
            second && coded && bare,
            second && !file.imports.is_empty(),
            second && file.classes.len() == 32,
        ]
    };
    assert_shapes(names, (0..1000).flat_map(files).map(shapes));
}

#[test]
fn handlers_in_every_shape() {
    let names = [
        "no handler",
        "one handler",
        "16 handlers",
        "a repeated handler",
        "overlapping handlers",
        "an end at the code's length",
        "a target in the range",
        "a target before the range",
        "a target behind the range",
        "the longest code with 16 handlers",
    ];
    let any = |list: &[Handler], holds: &dyn Fn(&Handler) -> bool| list.iter().any(holds);
    let shapes = |method: &MethodModel| {
        let (list, length) = (&method.handlers, method.code.len());
        let overlap = |a: &Handler, b: &Handler| a != b && a.start < b.end && b.start < a.end;
        [
            list.is_empty(),
            list.len() == 1,
            list.len() == MAX_HANDLERS,
            (1..list.len()).any(|place| list[..place].contains(&list[place])),
            any(list, &|a| list.iter().any(|b| overlap(a, b))),
            any(list, &|h| usize::from(h.end) == length),
            any(list, &|h| (h.start..h.end).contains(&h.target)),
            any(list, &|h| h.target < h.start),
            any(list, &|h| h.target >= h.end),
            list.len() == MAX_HANDLERS && length == 4096,
        ]
    };
    let second = (0..1000)
        .flat_map(files)
        .filter(|f| f.version == Version::Second);
    let found = second.flat_map(|file| {
        let coded = methods(&file).filter(|m| m.bits & IMPLEMENTED != 0);
        coded.map(shapes).collect::<Vec<_>>()
    });
    assert_shapes(names, found);
}
