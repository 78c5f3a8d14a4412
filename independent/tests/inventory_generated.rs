//! The printed inventory of generated stores: its totals by the calls that made them, the sum
//! that used is, and what generated inputs reach.

mod common;
use common::replay;
use independent::generate::inventories::{fixed, input};
use independent::generate::model::FileModel;
use independent::generate::sequences::sequence;
use independent::inventory::{heading, inventory, judged, lines, Line};
use independent::inventory_counts::InventoryCounts;
use independent::ledger::Call;
use independent::store::{layout, used, Body, ENTRY_HEAD};

fn text(bytes: &[u8]) -> String {
    bytes.iter().map(|byte| format!("{byte:02X}")).collect()
}

/// A file that was accepted and not removed since.
struct Accepted {
    aid: Vec<u8>,
    domain: Vec<u8>,
    bytes: usize,
    methods: usize,
}

/// Follows a call by its arguments and its number alone.
fn follow(files: &mut Vec<Accepted>, call: &Call) {
    match call {
        Call::Fresh | Call::FreshLimits(_) => files.clear(),
        Call::Load { domain, file } => {
            let model = FileModel::read(file).expect("an accepted file reads");
            let counts = model.classes.iter().map(|class| class.methods.len());
            files.push(Accepted {
                methods: counts.sum(),
                aid: model.aid,
                domain: domain.clone(),
                bytes: file.len(),
            });
        }
        Call::Remove(package) => files.retain(|file| file.aid != *package),
        _ => {}
    }
}

fn expected(files: &[Accepted]) -> String {
    let of = |figure: fn(&Accepted) -> usize| files.iter().map(figure).sum::<usize>();
    let (bytes, methods) = (of(|f| f.bytes), of(|f| f.methods));
    let line = |f: &Accepted| {
        let (aid, domain) = (text(&f.aid), text(&f.domain));
        format!("{aid} {domain} {} {}\n", f.bytes, f.methods)
    };
    let lines: String = files.iter().map(line).collect();
    format!("{lines}{} {bytes} {methods}\n", files.len())
}

#[test]
fn totals_are_the_sums_over_files_accepted_and_not_removed() {
    let (mut pages, mut removals) = (0, 0);
    let sequences = (0..1_500).map(sequence).filter(|s| s.has_ledger());
    for sequence in sequences {
        let mut files = Vec::new();
        replay(&sequence, |call, answer, store| {
            if answer & 0xFF == 0 {
                follow(&mut files, call);
                removals += u64::from(matches!(call, Call::Remove(_)));
            }
            let page = inventory(store);
            assert_eq!(String::from_utf8_lossy(&page), expected(&files));
            pages += u64::from(!files.is_empty());
        });
    }
    println!("{pages} pages with lines, {removals} removals");
    assert!(pages > 5_000 && removals > 500);
}

/// Opening bytes, headings, whole domain entries and file bytes, the last by the page.
fn summed(store: &[u8], lines: &[Line]) -> usize {
    let layout = layout(store).expect("a sound store");
    let opening = match store[4] {
        1 => 7,
        _ => 11,
    };
    let domains = layout.entries.iter().map(|entry| match entry.body {
        Body::Domain(_, aid) => ENTRY_HEAD + aid.len(),
        Body::Package { .. } => 0,
    });
    let packages = lines.iter().map(|line| heading(line.domain) + line.bytes);
    opening + domains.sum::<usize>() + packages.sum::<usize>()
}

#[test]
fn used_is_the_sum() {
    let mut sums = [0; 2];
    for store in fixed().into_iter().chain((0..2_000).map(input)) {
        if let Ok(contents) = judged(&store) {
            assert_eq!(summed(&store, &lines(&contents)), used(&store));
            sums[usize::from(store[4] == 2)] += 1;
        }
    }
    println!("{sums:?} sound stores of versions 1 and 2");
    assert!(sums.iter().all(|&count| count > 500));
}

#[test]
fn generated_inputs_count_all() {
    let mut counts = InventoryCounts::default();
    for seed in 0..2_000 {
        let store = input(seed);
        assert_eq!(counts.note(&store), inventory(&store));
    }
    println!("{counts}");
    assert_eq!(counts.shortfalls(100), [""; 0]);
}

#[test]
fn fixed_inputs_are_noted() {
    let mut counts = InventoryCounts::default();
    for store in fixed() {
        assert_eq!(counts.note(&store), inventory(&store));
    }
    println!("{counts}");
}
