//! Instructions of single calls, counted by valgrind.

use crate::library::Library;
use crate::timing::{as_expected, called};
use crate::workloads;
use independent::loader::{Independent, Loader};
use std::process::Command;

/// Makes a workload's call this often; `print` counts what that takes.
pub fn once(workload: &str, reader: &str, count: &str) {
    let all = workloads::all();
    let number: usize = workload.parse().expect("a workload's number");
    let loader: &dyn Loader = match reader {
        "library" => &Library,
        _ => &Independent,
    };
    for _ in 0..count.parse().expect("a count") {
        called(loader, &all[number], 1);
    }
}

/// The table of instructions: a run with one call less a run without.
pub fn print() {
    println!("\n## Instructions, in thousands\n");
    let Some(without) = counted(0, "library", 0) else {
        println!("Not counted: valgrind is not at hand.");
        return;
    };
    println!("| What | Size | Library | Independent | Ratio |");
    println!("|---|---|---:|---:|---:|");
    let all = workloads::all();
    let timed = all.iter().enumerate().filter(|(_, w)| as_expected(w));
    for (number, workload) in timed {
        let (name, size) = (workload.name, &workload.size);
        let of = |reader| Some(counted(number, reader, 1)? - without);
        if let (Some(library), Some(independent)) = (of("library"), of("independent")) {
            let ratio = library / independent;
            let (library, independent) = (library / 1e3, independent / 1e3);
            println!("| {name} | {size} | {library:.0} | {independent:.0} | {ratio:.2} |");
        }
    }
}

/// The instructions of a whole run with this many calls.
fn counted(workload: usize, reader: &str, count: u32) -> Option<f64> {
    let output = Command::new("valgrind")
        .args(["--tool=callgrind", "--callgrind-out-file=/dev/null"])
        .arg(std::env::current_exe().ok()?)
        .args(["once", &workload.to_string(), reader, &count.to_string()])
        .output()
        .ok()?;
    let text = String::from_utf8_lossy(&output.stderr).into_owned();
    let (_, collected) = text.split_once("Collected :")?;
    collected.split_whitespace().next()?.parse().ok()
}
