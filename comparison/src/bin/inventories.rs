//! `inventories SEED COUNT [PROGRAM]`: stores through the inventory, the program at PROGRAM (or
//! in the variable INVENTORY, or crates/inventory/out/inventory), and through the independent reader.

use comparison::process;
use comparison::report::described;
use independent::generate::inventories::{fixed, input};
use independent::inventory::inventory;
use independent::inventory_counts::InventoryCounts;
use independent::ledger::{Entry, Ledger};
use independent::store::{layout, Body};
use std::process::{Command, ExitCode};
use std::time::Instant;

/// From this many stores on, everything must have been reached often enough.
const FULL_RUN: u64 = 2_000;

/// How often.
const LEAST: u64 = 100;

fn main() -> ExitCode {
    let arguments: Vec<String> = std::env::args().skip(1).collect();
    let numbers: Vec<u64> = arguments.iter().take(2).flat_map(|a| a.parse()).collect();
    let [seed, count] = numbers[..] else {
        eprintln!("usage: inventories SEED COUNT [PROGRAM]");
        return ExitCode::FAILURE;
    };
    let named = arguments.get(2).cloned();
    let program = named.or_else(|| std::env::var("INVENTORY").ok());
    let program = program.unwrap_or_else(|| "crates/inventory/out/inventory".into());
    println!("seed {seed}, {count} stores");
    let start = Instant::now();
    let first = seed.wrapping_mul(1_000_003);
    let generated = (0..count).map(|number| input(first.wrapping_add(number)));
    let passed = run(&program, "fixed", fixed().into_iter()).is_some()
        && run(&program, "generated", generated).is_some_and(|counts| reached(&counts, count));
    println!("{} seconds", start.elapsed().as_secs());
    match passed {
        true => ExitCode::SUCCESS,
        false => ExitCode::FAILURE,
    }
}

/// Compares pages to the first difference; what was reached, if there is none.
fn run(
    program: &str,
    name: &str,
    stores: impl Iterator<Item = Vec<u8>>,
) -> Option<InventoryCounts> {
    let mut counts = InventoryCounts::default();
    let mut done = 0;
    for store in stores {
        let expected = counts.note(&store);
        if printed(program, &store).as_ref() != Ok(&expected) {
            println!("DIFFERENT: {name}, store {done}");
            report(program, &store);
            return None;
        }
        done += 1;
    }
    println!("same: {name}: {done} stores");
    Some(counts)
}

/// Prints what was reached; was it enough?
fn reached(counts: &InventoryCounts, stores: u64) -> bool {
    println!("{counts}");
    if stores < FULL_RUN {
        return true;
    }
    let shortfalls = counts.shortfalls(LEAST);
    shortfalls.iter().for_each(|s| println!("TOO FEW: {s}"));
    shortfalls.is_empty()
}

/// The program's page.
fn printed(program: &str, store: &[u8]) -> Result<Vec<u8>, String> {
    process::output(&mut Command::new(program), store).map_err(|error| error.to_string())
}

/// Leaves out entries while the pages differ, then prints what is left and the first line that
/// differs.
fn report(program: &str, store: &[u8]) {
    let differs = |store: &[u8]| printed(program, store) != Ok(inventory(store));
    let store = shortened(store, differs);
    println!("store of {} bytes: {}", store.len(), described(&store));
    let ours = inventory(&store);
    let theirs = match printed(program, &store) {
        Ok(page) => page,
        Err(error) => return println!("the program: {error}"),
    };
    let (mut our_lines, mut their_lines) = (split(&ours), split(&theirs));
    for number in 1.. {
        let (our, their) = (our_lines.next(), their_lines.next());
        if our != their || our.is_none() {
            let shown = |line: Option<&[u8]>| match line {
                Some(line) => line[..line.len().min(200)].escape_ascii().to_string(),
                None => "(none)".into(),
            };
            let (our, their) = (shown(our), shown(their));
            return println!("line {number}: independent {our}, the program {their}");
        }
    }
}

/// The lines with their ends.
fn split(page: &[u8]) -> impl Iterator<Item = &[u8]> {
    page.split_inclusive(|&byte| byte == b'\n')
}

/// A store of fewer entries of which this holds, if the layout holds.
fn shortened(store: &[u8], holds: impl Fn(&[u8]) -> bool) -> Vec<u8> {
    let Some(layout) = layout(store) else {
        return store.to_vec();
    };
    let entries = layout.entries.iter().map(|entry| match entry.body {
        Body::Domain(kind, aid) => Entry::Domain(kind, aid.to_vec()),
        Body::Package { domain, file } => Entry::Package {
            domain: domain.to_vec(),
            file: file.to_vec(),
        },
    });
    let mut ledger = Ledger::new(store.len());
    ledger.version = layout.version;
    ledger.entries = entries.collect();
    // Half of the entries at a time, then fewer.
    let mut together = ledger.entries.len();
    while together > 0 {
        for first in (0..ledger.entries.len()).step_by(together).rev() {
            let mut fewer = ledger.clone();
            let last = ledger.entries.len().min(first + together);
            fewer.entries.drain(first.min(last)..last);
            if holds(&fewer.written_out(store.len())) {
                ledger = fewer;
            }
        }
        together /= 2;
    }
    ledger.written_out(store.len())
}
