//! `bench ROUNDS DATE`: times of the library and the independent reader, times of the
//! inventory where that program is there, and the library's peak stack. `bench stack`: the
//! peak stack alone. `bench instructions`: instructions of single calls, where valgrind is at
//! hand. `bench page`: the inventory of standard input by the independent reader.

use comparison::hostile;
use comparison::instructions;
use comparison::inventories;
use comparison::stack::peaks;
use comparison::tables::{print_stack, Measured};
use comparison::timing::{as_expected, measure};
use comparison::workloads::{self, Workload};
use independent::generate::full_stores::full_stores;
use independent::generate::handler_cases;
use independent::generate::import_cases;
use independent::generate::int_cases;
use independent::generate::kind_cases;
use independent::generate::limit_cases;
use independent::generate::own_pairs::own_pairs;
use independent::generate::search_cases;
use independent::generate::sequences::sequence;
use independent::generate::special;
use independent::ledger::Call;
use independent::loader::{Sequence, Step};
use independent::package::Version;
use independent::store::StoreVersion;
use std::process::ExitCode;

/// The fewest rounds that count.
const ROUNDS: usize = 30;

fn main() -> ExitCode {
    let arguments: Vec<String> = std::env::args().skip(1).collect();
    let arguments: Vec<&str> = arguments.iter().map(String::as_str).collect();
    match arguments[..] {
        ["instructions"] => instructions::print(),
        ["stack"] => stack(&workloads::all(), &hostile::all()),
        ["page"] => return page(),
        ["once", workload, reader, count] => instructions::once(workload, reader, count),
        [rounds, date] => match rounds.parse() {
            Ok(rounds) if rounds >= ROUNDS => bench(rounds, date),
            _ => return usage(),
        },
        _ => return usage(),
    }
    ExitCode::SUCCESS
}

fn usage() -> ExitCode {
    eprintln!(
        "usage: bench ROUNDS DATE, with at least {ROUNDS} rounds; bench stack; bench instructions"
    );
    ExitCode::FAILURE
}

fn page() -> ExitCode {
    match inventories::print_page() {
        Ok(()) => ExitCode::SUCCESS,
        Err(_) => ExitCode::FAILURE,
    }
}

/// The rounds of a hostile vendor's stores: a call on one takes long.
const HOSTILE_ROUNDS: usize = 5;

fn bench(rounds: usize, date: &str) {
    println!("{}, {date}, {rounds} rounds.\n", processor());
    let mut workloads = workloads::all();
    workloads.retain(as_expected);
    let times = measure(&workloads, rounds);
    let ordinary = Measured { workloads, times };
    ordinary.print();
    let mut workloads = hostile::all();
    workloads.retain(as_expected);
    let times = measure(&workloads, HOSTILE_ROUNDS);
    let hostile = Measured { workloads, times };
    hostile.print_hostile();
    inventories::print(&hostile, rounds, HOSTILE_ROUNDS);
    stack(&ordinary.workloads, &hostile.workloads);
}

/// The peak stack of each operation.
fn stack(ordinary: &[Workload], hostile: &[Workload]) {
    let all = ordinary.iter().chain(hostile);
    print_stack(&peaks(stack_sequences(all)));
}

/// The processor's name.
fn processor() -> String {
    let text = std::fs::read_to_string("/proc/cpuinfo").unwrap_or_default();
    let line = text.lines().find(|line| line.starts_with("model name"));
    let name = line.and_then(|line| line.split_once(':'));
    name.map_or("unknown processor".into(), |(_, name)| name.trim().into())
}

/// Calls that reach deep: limits, lists with FE, handlers, limits of stores, kinds of domains,
/// searches, imports, ladders, full stores, all that is timed, and others.
fn stack_sequences<'a>(workloads: impl Iterator<Item = &'a Workload>) -> Vec<Sequence> {
    let mut found = special::lengths();
    found.extend(Version::BOTH.map(special::limits));
    found.push(special::own_limit_lists());
    found.extend(own_pairs());
    found.extend([handler_cases::limits(), handler_cases::orders()]);
    found.extend(handler_cases::version_pairs());
    found.extend(limit_cases::given());
    found.extend(limit_cases::at_limits());
    found.extend(int_cases::orders());
    found.extend(kind_cases::rooms());
    found.extend(kind_cases::meetings());
    found.extend(search_cases::places());
    found.extend(search_cases::lists());
    found.extend(import_cases::sequences());
    found.extend(full_stores());
    found.extend(special::hostile());
    found.extend((0..300).map(sequence));
    found.extend(workloads.map(over_workload));
    found
}

/// Stores of version 2 over which each call takes seconds.
const SLOW: [&str; 4] = [
    hostile::SEARCH_DEEP,
    hostile::SEARCH_DEEP_CROSSING,
    hostile::SEARCH_DEEP_TWO,
    hostile::SEARCH_DEEP_NONE,
];

/// The call that is timed; over a store of version 2 also one of each other kind, refused, unless
/// each takes seconds.
fn over_workload(workload: &Workload) -> Sequence {
    let start = workload.store.clone();
    let mut calls = vec![workload.call.clone()];
    let second = matches!(StoreVersion::of(&start), Some(StoreVersion::Second(_)));
    if second && !SLOW.contains(&workload.name) {
        let aid = || vec![9; 5];
        let (domain, file) = (aid(), Vec::new());
        calls.extend([
            Call::Delete(aid()),
            Call::Load { domain, file },
            Call::Remove(aid()),
            Call::Create(vec![]),
            Call::CreateWithoutInt(vec![]),
            Call::Query {
                domain: aid(),
                package: aid(),
                class: 0,
                name: 0,
            },
        ]);
    }
    let steps = calls.into_iter().map(Step::Call).collect();
    Sequence { start, steps }
}
