//! `differential SEED COUNT`: the fixed cases and generated call sequences through the
//! static library and the independent reader.

use comparison::counts::{Counting, Counts};
use comparison::fixed::{groups, Group};
use comparison::guarded::Guarded;
use comparison::library::Library;
use comparison::report::report;
use independent::generate::sequences::sequence;
use independent::loader::{compare, Sequence};
use std::process::ExitCode;
use std::time::Instant;

/// From this many sequences on, each number and depth must have been answered often enough,
/// and FE, handlers, limits, kinds of domains, searches and places of imports must have decided
/// often enough.
const FULL_RUN: u64 = 20_000;

/// How often each operation must answer each of its numbers in a full run, loads carry each
/// depth, FE decide, each side of each edge of limits be reached, searches and imports meet each
/// thing that they can meet, and answers tell each wrong reading of handlers, of limits, of kinds,
/// of each opcode, of searches and of imports apart.
const LEAST: u64 = 100;

const LIBRARY: Guarded<Library> = Guarded(Library);

fn main() -> ExitCode {
    let arguments: Vec<u64> = std::env::args().skip(1).flat_map(|a| a.parse()).collect();
    let [seed, count] = arguments[..] else {
        eprintln!("usage: differential SEED COUNT");
        return ExitCode::FAILURE;
    };
    println!("seed {seed}, {count} sequences");
    let start = Instant::now();
    let passed = groups(seed).into_iter().all(run_group) && run_generated(seed, count);
    println!("{} seconds", start.elapsed().as_secs());
    match passed {
        true => ExitCode::SUCCESS,
        false => ExitCode::FAILURE,
    }
}

/// Compares sequences to the first difference; the answers' counts, if there is none.
fn run(name: &str, sequences: impl Iterator<Item = Sequence>) -> Option<(u64, Counts)> {
    let counting = Counting::default();
    let mut done = 0;
    for sequence in sequences {
        if compare(&counting, &LIBRARY, &sequence).is_some() {
            println!("DIFFERENT: {name}, sequence {done}");
            report(&LIBRARY, &sequence);
            return None;
        }
        done += 1;
    }
    Some((done, counting.into_counts()))
}

fn run_group(group: Group) -> bool {
    let Some((sequences, counts)) = run(group.name, group.sequences) else {
        return false;
    };
    let calls = counts.calls();
    println!("same: {}: {sequences} sequences, {calls} calls", group.name);
    true
}

/// The generated sequences, their table and whether it reaches all that it should.
fn run_generated(seed: u64, count: u64) -> bool {
    let first = seed.wrapping_mul(1_000_003);
    let sequences = (0..count).map(|number| sequence(first.wrapping_add(number)));
    let Some((_, counts)) = run("generated", sequences) else {
        return false;
    };
    println!(
        "same: generated: {count} sequences, {} calls",
        counts.calls()
    );
    counts.print();
    if count < FULL_RUN {
        return true;
    }
    let shortfalls = counts.shortfalls(LEAST);
    shortfalls.iter().for_each(|s| println!("TOO FEW: {s}"));
    shortfalls.is_empty()
}
