//! The printed inventory as the benchmark times it: a process of the program beside one of the
//! independent reader, each from its start to its end.

use crate::process;
use crate::tables::{row, Measured, COLUMNS};
use crate::timing::{taken, Times};
use crate::workloads::{self, written, Workload};
use independent::generate::crowded::{full_of_methods, full_of_packages};
use independent::inventory::inventory;
use independent::package::Version;
use independent::store::StoreVersion;
use std::io::{self, Read, Write};
use std::path::Path;
use std::process::Command;
use std::time::{Duration, Instant};

/// A store, and what it is called.
pub struct Input {
    pub name: String,
    pub size: String,
    pub store: Vec<u8>,
}

fn input(name: &str, size: &str, store: Vec<u8>) -> Input {
    Input {
        name: name.into(),
        size: size.into(),
        store,
    }
}

/// An empty store, ordinary ones, and those of as many packages and as many methods as fit.
pub fn ordinary() -> Vec<Input> {
    let mut found = vec![input("an empty store", "64 bytes", written(&[], 64))];
    let queried = workloads::all()
        .into_iter()
        .filter(|w| w.name == workloads::QUERY && ["8 KB", "64 KB"].contains(&&w.size[..]));
    found.extend(queried.map(|w| input("full of ordinary packages", &w.size, w.store)));
    let (store, file) = (StoreVersion::First, Version::First);
    let packages = [5, 16].map(|length| full_of_packages(store, file, length));
    let names = [
        "full of the smallest packages",
        "full of packages with the longest AIDs",
    ];
    let packages = names.into_iter().zip(packages);
    found.extend(packages.map(|(name, store)| input(name, "64 KB", store)));
    let methods = full_of_methods(store, file);
    found.push(input("as many methods as fit", "64 KB", methods));
    found
}

/// Of the hostile stores, that of each version over which a refused query of the library took
/// longest.
fn hostile(measured: &Measured) -> Vec<Input> {
    let slowest = |second: bool| {
        let of_version = |workload: &Workload| {
            let version = StoreVersion::of(&workload.store);
            workload.number == 7 && matches!(version, Some(StoreVersion::Second(_))) == second
        };
        let all = measured.workloads.iter().zip(&measured.times);
        let (slowest, _) = all
            .filter(|(workload, _)| of_version(workload))
            .max_by(|(_, a), (_, b)| a.library.best().total_cmp(&b.library.best()))?;
        Some(input(slowest.name, &slowest.size, slowest.store.clone()))
    };
    [false, true].into_iter().filter_map(slowest).collect()
}

/// Writes the page of standard input by the independent reader.
pub fn print_page() -> io::Result<()> {
    let mut store = Vec::new();
    io::stdin().read_to_end(&mut store)?;
    io::stdout().write_all(&inventory(&store))
}

/// The program, and this one as `print_page`.
struct Programs {
    program: String,
    page: String,
}

impl Programs {
    /// Does the program write the page that it should? Where it does not, says so.
    fn as_expected(&self, input: &Input) -> bool {
        let page = process::output(&mut self.program(), &input.store);
        let same = page.is_ok_and(|page| page == inventory(&input.store));
        if !same {
            let Input { name, size, .. } = input;
            eprintln!("left out: {name}, {size}: the inventory writes another page");
        }
        same
    }

    fn program(&self) -> Command {
        Command::new(&self.program)
    }

    fn independent(&self) -> Command {
        let mut command = Command::new(&self.page);
        command.arg("page");
        command
    }

    fn measure(&self, inputs: &[Input], rounds: usize) -> Vec<Times> {
        taken(
            inputs.len(),
            rounds,
            |number| timed(self.program(), &inputs[number]),
            |number| timed(self.independent(), &inputs[number]),
        )
    }

    fn print(&self, mut inputs: Vec<Input>, rounds: usize) {
        inputs.retain(|input| self.as_expected(input));
        let times = self.measure(&inputs, rounds);
        for (input, times) in inputs.iter().zip(&times) {
            println!("{}", row(&input.name, &input.size, times));
        }
    }
}

/// The time of a process.
fn timed(mut command: Command, input: &Input) -> Duration {
    let start = Instant::now();
    let page = process::output(&mut command, &input.store);
    let spent = start.elapsed();
    assert!(page.is_ok(), "{}, {}: {page:?}", input.name, input.size);
    spent
}

/// The table of pages, so many rounds each; the program is that in the variable INVENTORY or
/// crates/inventory/out/inventory.
pub fn print(measured: &Measured, rounds: usize, hostile_rounds: usize) {
    println!("\n## Inventory\n");
    let program =
        std::env::var("INVENTORY").unwrap_or_else(|_| "crates/inventory/out/inventory".into());
    let page = std::env::current_exe().map(|path| path.to_string_lossy().into_owned());
    let (true, Ok(page)) = (Path::new(&program).is_file(), page) else {
        println!("Not timed: there is no program {program}.");
        return;
    };
    println!("Microseconds of a whole process, the store by a pipe and the page by another; the");
    println!("ratio is the program's time by that of a process of the independent reader. The");
    println!("empty store's line is what a process costs; the last two lines are the hostile");
    println!("stores of version 1 and 2 over which the library's query took longest.\n");
    println!("| What | Size | Program, best | {COLUMNS} |");
    println!("|---|---|---:|---:|---:|---:|---:|---:|");
    let programs = Programs { program, page };
    programs.print(ordinary(), rounds);
    programs.print(hostile(measured), hostile_rounds);
}
