//! `sequences SEED COUNT`: runs generated sequences through the byte operations
//! and the ledger side by side and prints how often each number was answered, how deep
//! the accepted files were and how often FE, handlers, limits, kinds of domains, searches for
//! declarations and places of imports decided.

use independent::depths::DepthCounts;
use independent::generate::sequences::sequence;
use independent::handler_counts::HandlerCounts;
use independent::import_counts::ImportCounts;
use independent::int_counts::IntCounts;
use independent::ledger::{Call, Ledger};
use independent::limit_counts::LimitCounts;
use independent::loader::{damage, shrink, Independent, Loader, Sequence, Step};
use independent::own_domain::OwnCounts;
use independent::questions::{q2, NUMBERS};
use independent::search_counts::SearchCounts;
use std::process::ExitCode;

const GREATEST: u8 = NUMBERS[NUMBERS.len() - 1];

#[derive(Default)]
struct Counts {
    answers: [[u64; GREATEST as usize + 1]; Call::OPERATIONS.len()],
    with_ledger: u64,
    depths: DepthCounts,
    own: OwnCounts,
    handlers: HandlerCounts,
    limits: LimitCounts,
    int: IntCounts,
    search: SearchCounts,
    imports: ImportCounts,
    yes: u64,
}

fn main() -> ExitCode {
    let arguments: Vec<u64> = std::env::args().skip(1).flat_map(|a| a.parse()).collect();
    let [seed, count] = arguments[..] else {
        eprintln!("usage: sequences SEED COUNT");
        return ExitCode::FAILURE;
    };
    println!("seed {seed}, {count} sequences");
    let mut counts = Counts::default();
    for number in 0..count {
        let seed = seed.wrapping_mul(1_000_003).wrapping_add(number);
        let sequence = sequence(seed);
        if run(&sequence, &mut counts).is_err() {
            report(seed, &sequence);
            return ExitCode::FAILURE;
        }
    }
    print_table(&counts);
    ExitCode::SUCCESS
}

/// Runs one sequence; tells the step and what differs.
fn run(sequence: &Sequence, counts: &mut Counts) -> Result<(), (usize, String)> {
    let mut store = sequence.start.clone();
    let mut ledger = sequence.has_ledger().then(|| Ledger::new(store.len()));
    counts.with_ledger += u64::from(ledger.is_some());
    for (number, step) in sequence.steps.iter().enumerate() {
        let call = match step {
            Step::Damage { place, bits } => {
                damage(&mut store, *place, *bits);
                continue;
            }
            Step::Call(call) => call,
        };
        let before = store.clone();
        let answer = Independent.call(&mut store, call);
        count(counts, call, answer, &store);
        if answer & 0xFF != 0 && store != before {
            return Err((number, "a refusal changed the store".into()));
        }
        if let Some(ledger) = &mut ledger {
            let expected = ledger.call(call).encoded();
            if answer != expected {
                let what = format!("answer {answer}, ledger {expected}");
                return Err((number, what));
            }
            if store != ledger.written_out(store.len()) {
                return Err((number, "bytes differ from the ledger".into()));
            }
            if q2(&store).is_none() {
                return Err((number, "the store is not sound".into()));
            }
        }
    }
    Ok(())
}

/// Counts an answer; the store is as the call left it.
fn count(counts: &mut Counts, call: &Call, answer: u32, store: &[u8]) {
    counts.answers[call.operation()][(answer & 0xFF) as usize] += 1;
    counts.own.note(call, answer, store);
    counts.handlers.note(call, answer, store);
    counts.limits.note(call, answer, store);
    counts.int.note(call, answer, store);
    counts.search.note(call, answer, store);
    counts.imports.note(call, answer, store);
    match call {
        Call::Load { .. } if answer & 0xFF == 0 => counts.depths.note(answer >> 8, store),
        Call::Query { .. } => counts.yes += u64::from(answer >> 8),
        _ => {}
    }
}

fn print_table(counts: &Counts) {
    println!("{} sequences followed by the ledger", counts.with_ledger);
    print!("{:18}", "");
    NUMBERS.iter().for_each(|number| print!("{number:>7}"));
    println!();
    for (name, row) in Call::OPERATIONS.iter().zip(&counts.answers) {
        print!("{name:18}");
        let answers = NUMBERS.map(|number| row[usize::from(number)]);
        answers.iter().for_each(|answers| print!("{answers:>7}"));
        println!();
    }
    let answers = &counts.answers[Call::LOAD];
    let loads: u64 = answers.iter().sum();
    let accepted = 100 * answers[0] / loads.max(1);
    println!("{accepted}% of {loads} loads accepted: {}", counts.depths);
    println!("{} queries answered yes", counts.yes);
    println!("{}\n{}\n{}", counts.own, counts.handlers, counts.limits);
    println!("{}\n{}\n{}", counts.int, counts.search, counts.imports);
}

/// A short sequence that shows the difference, in hex.
fn report(seed: u64, sequence: &Sequence) {
    let fails = |s: &Sequence| run(s, &mut Counts::default()).is_err();
    let sequence = shrink(sequence, fails);
    if let Err((step, what)) = run(&sequence, &mut Counts::default()) {
        println!("sequence seed {seed}, step {step}: {what}");
    }
    println!("buffer of {} bytes", sequence.start.len());
    println!("{}", hex(&sequence.start));
    for step in &sequence.steps {
        match step {
            Step::Damage { place, bits } => println!("damage {place} {bits:02X}"),
            Step::Call(Call::Fresh) => println!("fresh"),
            Step::Call(Call::FreshLimits(limits)) => println!("fresh {limits:?}"),
            Step::Call(Call::Create(domain)) => println!("create {}", hex(domain)),
            Step::Call(Call::CreateWithoutInt(domain)) => {
                println!("create without int {}", hex(domain));
            }
            Step::Call(Call::Delete(domain)) => println!("delete {}", hex(domain)),
            Step::Call(Call::Load { domain, file }) => {
                println!("load {} {}", hex(domain), hex(file));
            }
            Step::Call(Call::Remove(package)) => println!("remove {}", hex(package)),
            Step::Call(Call::Query {
                domain,
                package,
                class,
                name,
            }) => {
                let (domain, package) = (hex(domain), hex(package));
                println!("query {domain} {package} {class:02X} {name:04X}");
            }
        }
    }
}

fn hex(bytes: &[u8]) -> String {
    bytes.iter().map(|byte| format!("{byte:02X}")).collect()
}
